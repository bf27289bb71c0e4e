"""Judges wrong bodies of a crate, by what checks of copies of the crate say; tools/wrong_bodies says how."""

import os
import re
from collections import Counter
from dataclasses import dataclass

from . import answers, rattle_source
from .answers import Verdict
from .checking import PROVED, Checks, Outcome, findings, named_before, told
from .common import text_of
from .edits import faults_in, parts_by
from .laying_out import as_they_are, lay_out, numbers_of, proofs_of, twin_of

SURVIVES = "NOT REFUSED: the function is proved with this body"
RENAMED = "NOT REFUSED: the right body's answers prove its goals, which have other names"
# How many wrong bodies one check has at most.
MOST = 125
# The words with which a check ends that is asked for a function which it does not know.
UNKNOWN = re.compile(r"no function, type or module|fits no|names no")


@dataclass(frozen=True)
class Judgement:
    """What came of a wrong body, by its name, and why."""

    name: str
    verdict: Verdict
    why: str


class Judge:
    """Tries wrong bodies of one crate. It trusts a goal that an edit names to refuse no right body, unless it is to
    write these names anew. If it writes names, it looks for terms where an edit has none at hand."""

    def __init__(self, crate, edits, anew, names=False):
        self.crate, self.edits, self.trusts, self.looks, self.rounds = crate, edits, not (names and anew), names, 0
        self.found = []
        # The functions of each edit that a check did not prove, by their names, as far as they are tried.
        self.suspects = {}
        for edit in edits:
            folders = [it for function in edit.functions for it in proofs_of(crate, function)]
            if edit.goal and len(folders) == 1:
                self.suspects[edit.name] = {None: self.suspect(edit, folders[0], edit.goal, edit.terms)}
        # The names of those that one check did not judge, and what the functions that each makes wrong took, in
        # processor seconds.
        self.later, self.seconds = set(), Counter()
        # The number of each edit, by its name, which stays from check to check: with one above 1 it is tried in a twin.
        self.numbers = numbers_of(crate, edits)
        # The names of the functions that each edit makes wrong, as far as they are known.
        named = {it.functions: [named_before(crate, function) for function in it.functions] for it in edits}
        self.names = {functions: names for functions, names in named.items() if all(names)}
        self.checks = Checks(crate, anew)

    def all_of(self, verdict):
        """The names of what was judged so, with the reasons."""
        return [(it.name, it.why) for it in self.found if it.verdict is verdict]

    @property
    def passed(self):
        return self.all_of(Verdict.REFUSED)

    @property
    def failed(self):
        return self.all_of(Verdict.NOT_REFUSED)

    def note(self, name, verdict, why):
        """Notes what came of a wrong body, and answers its verdict."""
        self.found.append(Judgement(name, verdict, why))
        return verdict

    def judge(self, edit, twin, said):
        """Judges an edit by what a check said."""
        found, fails = findings(self.crate, edit, said), Verdict.NOT_REFUSED
        asks = any(it.beside or it.others for it in self.suspects.get(edit.name, {}).values())
        if len(found) > len(edit.functions):
            return self.note(edit.name, fails, "its function cannot be told from others of the same name")
        if not said.verdicts:
            return self.note(edit.name, fails, "NOT REFUSED: the crate is proved with this body")
        if not found:
            return self.note(edit.name, fails, "the check says nothing of its function")
        outcomes = {it.outcome for it in found}
        if any(it.lines for it in found) or asks and Outcome.CALLEES not in outcomes:
            return self.ask_more(edit, twin, {it.name: it.lines for it in found if it.lines or asks})
        return self.note(edit.name, fails, self.surviving(edit)) if outcomes == {Outcome.PROVED} else Verdict.OPEN

    def surviving(self, edit):
        """How a body was proved."""
        suspects = self.suspects.get(edit.name, {}).values()
        if any(it.held or it.goal for it in suspects):
            return RENAMED
        gone = [f"`{goal}`" for it in suspects for goal in sorted(it.gone)]
        is_renamed = any(it.is_renamed for it in suspects)
        return f"{answers.AT_HAND} ({', '.join(gone)})" if gone else RENAMED if is_renamed else SURVIVES

    def ask_more(self, edit, twin, errors):
        """Takes what a check said of the functions of an edit that it did not prove, and judges the edit."""
        suspects, verdicts = self.suspects.setdefault(edit.name, {}), []
        for name, lines in errors.items():
            # (the name of a twin may differ from check to check)
            key = name if len(edit.functions) > 1 else None
            if key not in suspects:
                # (a twin has the name of its function, with a number)
                suspects[key] = self.suspect(edit, twin.original if twin else "/".join(name.split("::")[1:]))
            verdicts.append(suspects[key].takes(lines))
        return self.settle(edit, verdicts)

    def settle(self, edit, verdicts):
        """Judges an edit by the verdicts on its functions: it is refused if a goal of one refuses it, and left open if
        one of them asks for another check."""
        suspects = self.suspects[edit.name].values()
        refused = [it.refused for it in suspects if it.refused]
        if refused:
            return self.note(edit.name, Verdict.REFUSED, refused[0])
        if Verdict.OPEN in verdicts:
            return Verdict.OPEN
        return self.note(edit.name, Verdict.NOT_REFUSED, next(it.fault() for it in suspects))

    def suspect(self, edit, folder, named=None, terms=()):
        """A function as a suspect, by the folder of its proof, and the goal and the terms that the edit names."""
        file = f"{self.crate.folder}/proofs/{folder}/Answers.antt"
        texts = {path: text_of(f"{self.crate.folder}/{path}").split("\n") for path, _ in edit.lines}
        lines = [(texts[path][number - 1], new) for (path, number), new in edit.lines.items()]
        is_there = folder and os.path.isfile(file)
        function = min(edit.functions)
        is_generic = rattle_source.is_generic(function, text_of(f"{self.crate.folder}/{function.path}"))
        return answers.Suspect(
            folder=folder,
            text=text_of(file) if is_there else answers.begun(self.crate.name, folder) if folder else "",
            keeps=all(answers.keeps_paths(*it) for it in lines),
            calls=[pair for it in lines for pair in answers.calls_changed(*it)],
            drops=answers.drops_calls(*("\n".join(it) for it in zip(*lines))),
            binders=" g c" if is_generic else " c",
            named=named,
            named_terms=terms,
            is_trusted=self.trusts,
            looks=self.looks,
            is_explained=edit.is_explained,
        )

    def waiting(self, name):
        """The suspects of an edit that wait until it is known which goals their right bodies have."""
        return [it for it in self.suspects.get(name, {}).values() if it.waits()]

    def clear(self, edits):
        """Asks in one check which goals the right bodies of waiting suspects have, and whether questions that they left
        open prove these. Returns the edits that this leaves open."""
        new = [it for edit in edits for it in self.waiting(edit.name)]
        goals, questions = {it.folder: [] for it in new}, {it.folder: [] for it in new}
        for number, it in enumerate(new):
            goals[it.folder] += it.open
            if it.asserted:
                questions[it.folder].append((f"asked-{number}", it.asserted[0], it.asserted[2]))
        asked = {it.folder: answers.asking(it.written, goals[it.folder], questions[it.folder]) for it in new}
        names = [*dict.fromkeys(self.known_names(edits, [1] * len(edits)))]
        said = self.checks.check(as_they_are(self.crate, edits), self.suspects, names, True, asked)
        self.rounds += 1
        verdicts = {}
        for number, it in enumerate(new):
            it.right = {answers.parts_of(goal)[0] for goal in answers.holes_in(said.lines, it.folder)}
            is_proved = said.reached and answers.is_proved(f"asked-{number}", said.lines, it.folder)
            verdicts[id(it)] = it.confirms(is_proved) if it.asserted else it.chooses()
        of = {it.name: [verdicts.get(id(one)) for one in self.suspects[it.name].values()] for it in edits}
        return [it for it in edits if self.settle(it, of[it.name]) is Verdict.OPEN]

    def tries(self):
        """How many checks suspects asked for."""
        return sum(it.tries for every in self.suspects.values() for it in every.values())

    def known_names(self, edits, numbers):
        """The names of the functions that edits make wrong, in twins where a number is above 1: none where one of them
        is not known."""
        if not all(it.functions in self.names for it in edits):
            return []
        pairs = [(it, number) for edit, number in zip(edits, numbers) for it in self.names[edit.functions]]
        return [f"{it}_{number}" if number > 1 else it for it, number in pairs]

    def look_at_others(self, edits, said):
        """Fails where a function that no edit touched is refused for a reason of its own."""
        touched = {name for edit in edits for name in self.told_of(edit, said)}
        for name, verdict in said.verdicts.items():
            if name not in touched and not PROVED.match(verdict) and not answers.is_for_callees(verdict):
                self.note(name, Verdict.NOT_REFUSED, f"has its right body, and is refused: {verdict}")

    def told_of(self, edit, said):
        """The names of the functions that an edit makes wrong."""
        return [name for function in edit.functions for name in told(self.crate, function, said)]

    def round(self, edits):
        """Tries edits in one check, or in parts where they do not compile, and returns those left open."""
        layout = lay_out(self.crate, edits, self.numbers)
        # (where their names are known, these functions alone are checked)
        names = self.known_names(edits, [self.numbers[it.name] for it in edits])
        said = self.checks.check(layout, self.suspects, names, True)
        if names and any(UNKNOWN.search(it) for it in said.lines):
            self.names, names = {}, []
            said = self.checks.check(layout, self.suspects, names, True)
        faults = faults_in(said.lines)
        if not said.reached and not faults:
            said = self.checks.check(layout, self.suspects, names, False)
        self.rounds += 1
        if said.reached:
            return self.take(edits, layout.edits, layout.twins, said, not names)
        if len(edits) == 1:
            why = next((it for it in said.lines if "error" in it), "the check ended without a verdict")
            self.note(edits[0].name, Verdict.NOT_REFUSED, f"does not reach a verdict: {why}")
            return []
        return [it for part in parts_by(faults, edits, layout.edits, layout.twins) for it in self.round(part)]

    def take(self, edits, laid, twins, said, is_whole):
        """Judges edits by what a check said, of the whole crate or of their functions, and returns those left open."""
        if is_whole:
            self.names = {it.functions: self.told_of(it, said) for it in self.edits}
        if len(edits) > 1:
            self.look_at_others(laid, said)
        left = {it.name for it, twin in zip(laid, twins) if self.judge(it, twin, said) is Verdict.OPEN}
        for it in laid:
            self.seconds[it.name] += sum(said.seconds.get(name, 0.0) for name in self.told_of(it, said))
        return [it for it in edits if it.name in left]

    def together(self, edits):
        """Those of the edits that are tried in one check, in which a function has one, or twins for the others; and the
        rest."""
        now, later, taken = [], [], set()
        for edit in edits:
            touches = edit.functions | edit.lines.keys() if self.numbers[edit.name] == 1 else set()
            fits = len(now) < MOST and not touches & taken
            if not now or not edit.is_alone and not now[0].is_alone and fits:
                now.append(edit)
                taken |= touches
            else:
                later.append(edit)
        return now, later

    def try_together(self, edits):
        """Tries edits in one check, and where it judges none of them the first one alone. Returns those left open."""
        tries = self.tries()
        open_ones = self.round(edits)
        if len(open_ones) < len(edits) or tries != self.tries():
            return open_ones
        alone = self.round(edits[:1]) if len(edits) > 1 else edits
        if alone and tries == self.tries():
            why = "is not judged: its function is refused for what it calls alone"
            self.note(edits[0].name, Verdict.NOT_REFUSED, why)
            alone = []
        return alone + edits[1:]

    def run(self):
        """Tries all edits, in rounds. New suspects wait for the end of these, when one run tells the goals of all their
        right bodies, and have rounds of their own."""
        # (those that cannot be in twins take the most rounds, so they come first)
        left = sorted(self.edits, key=lambda it: (it.is_alone, twin_of(self.crate, it, 2) is not None))
        waiting = []
        while left or waiting:
            if not left:
                left, waiting = self.clear(waiting), []
                continue
            now, later = self.together(left)
            open_ones = self.try_together(now)
            self.later |= {it.name for it in open_ones}
            waiting += [it for it in open_ones if self.waiting(it.name)]
            left = [it for it in open_ones if not self.waiting(it.name)] + later
        self.checks.end()
        return self
