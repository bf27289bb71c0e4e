"""Reads wrong bodies, and tells where a front end finds fault with some."""

import os
import re
from dataclasses import dataclass

from .common import text_of
from .rattle_source import functions_of

# A line with which the front end refuses a crate.
FAULT = re.compile(r"(?:\./)?(src/\S+?\.rt):(\d+):\d+: error\b")
# The lines of an edit that name a goal, and terms that are at hand there.
GOAL = re.compile(r"^# (?:goal|at hand): .*\n", re.M)


@dataclass(frozen=True)
class Edit:
    """A wrong body: its name, the lines that it changes, by file and number, the functions that these lie in, whether
    it is tried alone, the goal that it names, the terms of the right body's answer that are at hand there, and whether
    it says how the body breaks an invariant."""

    name: str
    lines: dict
    functions: frozenset
    is_alone: bool
    goal: str = None
    terms: tuple = ()
    is_explained: bool = False


def faults_in(lines):
    """The places in the sources at which a front end found faults, as files and numbers of lines.

    >>> faults_in(["src/a/b.rt:164:21: error[mismatched-types]: expected `u8`, found `bool`", "only=0 proved=0"])
    [('src/a/b.rt', 164)]
    >>> faults_in(["./proofs/f/Answers.antt:3:9: error: `returns`", "note: src/f.rt:39:5: it is not proved that .."])
    []
    """
    return [(it[1], int(it[2])) for it in map(FAULT.match, lines) if it]


def parts_by(faults, edits, laid, twins):
    """The parts of edits that are tried next, where together they do not compile: each at which the front end found a
    fault alone, and the others together; or two halves, where the faults do not tell."""
    is_at_fault = [has_fault(it, twin, faults) for it, twin in zip(laid, twins)]
    alone = [[edit] for edit, it in zip(edits, is_at_fault) if it]
    others = [edit for edit, it in zip(edits, is_at_fault) if not it]
    half = len(edits) // 2
    return [others, *alone] if alone and others else [edits[:half], edits[half:]]


def has_fault(edit, twin, faults):
    """Whether one of the faults lies in what an edit wrote, or in a function that it makes wrong.

    >>> functions = functions_of("src/lib.rt", "\\n\\n\\nfn f() -> u8 {\\n    1\\n}\\n")
    >>> edit = Edit("a", {("src/lib.rt", 9): "    x"}, frozenset(functions), False)
    >>> [has_fault(edit, None, [("src/lib.rt", it)]) for it in (3, 4, 6, 7, 9)]
    [False, True, True, False, True]
    """
    wrote = () if twin else edit.lines
    spans = [(it.path, range(it.first, it.last + 1)) for it in edit.functions]
    return any(it in wrote or any(it[0] == path and it[1] in span for path, span in spans) for it in faults)


def read_edit(crate, name):
    """A wrong body as its file says, or why it cannot be applied."""
    path, old, named, goal, terms, texts, was, is_explained = None, None, None, None, [], {}, {}, False
    for line in text_of(f"{crate.folder}/wrong_bodies/{name}").split("\n"):
        word, _, said = line.partition(": ") if not line.startswith("new:") else ("new", "", line[4:].removeprefix(" "))
        if word == "file":
            path, file = said, f"{crate.folder}/{said}"
            was.setdefault(path, text_of(file) if os.path.isfile(file) else "")
            texts.setdefault(path, was[path])
        elif word == "fn":
            named = said
        elif word == "# goal":
            goal = said
        elif word == "# at hand":
            terms.append(said)
        elif word == "# breaks":
            is_explained = bool(said)
        elif word == "old" and path:
            old = said
        elif word == "new" and old:
            if texts[path].count(old) != 1:
                return None, f"its text stands not once in {path}: {old}"
            texts[path], old = texts[path].replace(old, said), None
        elif line.strip() and not line.startswith("#"):
            return None, f"a line is not read: {line}"
    # (each text is one line, so that all lines stay where they are)
    both = {it: list(enumerate(zip(was[it].split("\n"), texts[it].split("\n")), 1)) for it in was}
    lines = {(it, number): new for it in was for number, (old, new) in both[it] if old != new}
    known = [function for it in was for function in functions_of(it, was[it])]
    if named:
        functions = [it for it in known if any(f"{type}::{it.name}" == named for type in it.types)]
    else:
        functions = [it for it in known if any(it.path == at and it.first <= n <= it.last for at, n in lines)]
    if not lines or not functions:
        return None, "it changes nothing, or changes no function and names none"
    return Edit(name.removesuffix(".edit"), lines, frozenset(functions), bool(named), goal, terms, is_explained), None
