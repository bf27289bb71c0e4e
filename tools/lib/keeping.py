"""Keeps which wrong bodies were refused, under a sum of all that each was judged by."""

import hashlib
import os
from collections import Counter

from . import common, judged, rattle_source
from .common import text_of
from .edits import GOAL, read_edit

# How many wrong bodies are worth a check of their own, where processors are idle.
LEAST = 20
# Where it is kept which wrong bodies were refused, as files whose names are the sums of all that they were judged by.
KEPT = os.path.join(os.environ.get("XDG_CACHE_HOME") or os.path.expanduser("~/.cache"), "cordyceps-wrong-bodies")


class Basis:
    """What the wrong bodies of a crate are judged by, as sums."""

    def __init__(self, crate):
        self.crate = crate
        parts = {part: common.files_in(f"{crate.folder}/{part}") for part in common.rtlib().PARTS}
        self.proofs = judged.own_proofs(crate)
        files = [f"{os.path.dirname(os.path.realpath(__file__))}/{it}.py" for it in judged.JUDGING] + read_below(crate)
        files += [it for it in [*parts["specs"], *parts["proofs"]] if it not in self.proofs]
        paths = [os.path.relpath(it, crate.folder) for it in parts["src"]]
        sources = [rattle_source.without_bodies(it, text_of(it)) for it in parts["src"]]
        libraries = [it.name for it in crate.below()]
        self.shared = common.sum_of(files, crate.name, crate.said, crate.of_kit, libraries, paths, sources)
        self.whole = common.sum_of([*parts["src"], *self.proofs], self.shared)

    def of(self, edit):
        """A sum of all that a wrong body is judged by, beside its own file. Bodies and proofs of functions that it does
        not change are no part of that: a check reads their contracts."""
        if edit.is_alone:
            return self.whole
        own, proofs = [], []
        for it in edit.functions:
            own.append(text_of(f"{self.crate.folder}/{it.path}").split("\n")[it.first - 1 : it.last])
            proofs += [file for file in self.proofs if self.may_be_of(it, file)]
        return common.sum_of(sorted({*proofs}), self.shared, sorted(own))

    def may_be_of(self, function, file):
        """Whether a file may be part of a function's proof: it lies in a folder of that name, or in one of functions
        that are proved together."""
        folders = os.path.relpath(file, self.crate.folder).split("/")[1:-1]
        return function.name in folders or any(it.startswith("+") for it in folders)


def read_below(crate):
    """What a check of a crate can read of the libraries below it."""
    found = [file for it in crate.below() for file in common.files_in(f"{it.rlib}/lang", f"{it.rlib}/interface")]
    # (what is left out has to do with the bodies and the proofs of the library's own functions)
    return [it for it in found if os.path.basename(it) not in (*common.OWN_PROOF, "made.json")]


class Asked:
    """The wrong bodies of a crate that are asked for: those to try, what is known of the others, and how many stand by
    the crate's line."""

    def __init__(self, crate, word, anew, is_drawn, sum=None):
        self.crate, self.edits, self.known, self.passed, self.failed, self.places = crate, [], [], [], [], {}
        self.seconds, self.stands, self.sum = Counter(), 0, sum
        basis = Basis(crate)
        for name in sorted(os.listdir(f"{crate.folder}/wrong_bodies")):
            edit, why = read_edit(crate, name)
            if not is_drawn(name):
                self.stands += bool(word.search(name))
            elif why:
                self.failed.append((name, why))
            elif word.search(name):
                # (the goal that it names tells where to look first, and changes nothing)
                text = GOAL.sub("", text_of(f"{crate.folder}/wrong_bodies/{name}"))
                place = f"{KEPT}/{hashlib.sha256(repr((basis.of(edit), name, text)).encode()).hexdigest()}"
                if not anew and os.path.isfile(place):
                    self.known.append(edit)
                    self.passed.append((edit.name, f"by an earlier run: {text_of(place)}"))
                else:
                    self.edits.append(edit)
                    self.places[edit.name] = place

    def count(self):
        """How many were judged, now or by an earlier run."""
        return len(self.passed) + len(self.failed)

    def parts(self, count):
        """The edits to try, in at most so many parts, which are tried side by side. A function's stay together."""
        count = max(min(count, len(self.edits) // LEAST), 1)
        parts = [[] for _ in range(count)]
        where = {}
        for edit in self.edits:
            least = min(range(count), key=lambda it: len(parts[it]))
            parts[where.setdefault(min(edit.functions), least)].append(edit)
        return [it for it in parts if it]

    def name_goals(self, judge):
        """Writes into each edit that was refused by a goal which was asked for alone which goal that is."""
        for name, _ in judge.passed:
            file, of = f"{self.crate.folder}/wrong_bodies/{name}.edit", [*judge.suspects.get(name, {}).values()]
            if len(of) == 1 and of[0].by and not of[0].is_named:
                lines = [f"# goal: {of[0].by}\n", *(f"# at hand: {it}\n" for it in of[0].terms.get(of[0].by, ()))]
                common.write(file, "".join(lines) + GOAL.sub("", text_of(file)))

    def take(self, judge):
        """Takes what a judge found, and keeps what it refused, if it refused no right body."""
        self.passed += judge.passed
        self.failed += judge.failed
        self.seconds += judge.seconds
        if {name for name, _ in judge.failed} <= {it.name for it in self.edits}:
            for name, why in judge.passed:
                common.write(self.places[name], why)
