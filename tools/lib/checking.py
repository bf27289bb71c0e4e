"""Checks copies of a crate in which functions have wrong bodies, and tells what a check says of each function."""

import os
import re
import shutil
import tempfile
from dataclasses import dataclass
from enum import Enum

from . import answers, common
from .common import text_of
from .laying_out import home_of, is_for_whole
from .rattle_source import functions_of, module_of

VERDICT = re.compile(r"^fn (\S+): (.*)$")
# The words of a verdict that finds no fault: the function is proved, or would be but for a proof that is left open.
PROVED = re.compile(r"proved\b|no holes\b|depends on a hole\b")
# In the text of a library that was built: a block of functions, with the name of an `impl` of a trait, if it is one.
BLOCK = re.compile(r"^(?:# \[.*\] )?(?:impl\b.* for .* as (\w+)|impl\b.*|(?:pub )?trait \w.*) \{$", re.M)
# In a checked file: what it was checked by, after which the folders of kept work are named.
KERNEL = re.compile(rb"^--@ kernel (\S+)$", re.M)


@dataclass(frozen=True)
class Said:
    """What a check said: whether it reached the prover, what it said of each function, and its other lines; and what
    each function took, in processor seconds."""

    reached: bool
    verdicts: dict
    lines: list
    seconds: dict


class Outcome(Enum):
    """What a check found of a function."""

    PROVED = "proved, or it would be but for a proof that is left open"
    FAILS = "not proved"
    CALLEES = "not proved for what it calls, and for nothing else that a line shows"


@dataclass(frozen=True)
class Finding:
    """What a check found of a function, by its name, and the lines that show that it fails by itself."""

    name: str
    outcome: Outcome
    lines: list


def told(crate, function, said):
    """What was said of a function: its verdict, by its name. A method's name has its type's module, and not its own."""
    module = "::".join([crate.name, *module_of(function.path)])
    same = {name: it for name, it in said.verdicts.items() if name.split("::")[-1] == function.name}
    if not function.types:
        return {name: it for name, it in same.items() if name == f"{module}::{function.name}"}
    # (with the trait's name behind it first: a type may have a method of the same name)
    for type in reversed(function.types):
        found = {name: it for name, it in same.items() if name.split("::")[-2].split("+")[0] == type}
        here = {name: it for name, it in found.items() if name.startswith(f"{module}::")}
        if found:
            return here if len(found) > 1 and here else found
    return {}


def shows(function, name, verdict, said):
    """The lines that show that a function fails by itself, and not for what it calls."""
    folder = "/".join(name.split("::")[1:])
    own = [it for it in said.lines if re.match(rf"(\./)?proofs/{re.escape(folder)}/\w+\.antt:\d+:\d+: error", it)]
    for it in said.lines:
        at = re.match(r"(?:note: )?(?:\./)?(\S+?):(\d+):\d+:", it)
        if at and at[1] == function.path and function.first <= int(at[2]) <= function.last and "not proved that" in it:
            own.append(it)
    if answers.SEARCHED in verdict:
        own.append(verdict[verdict.index(answers.SEARCHED) :])
    return own


def findings(crate, edit, said):
    """What a check found of the functions that an edit makes wrong."""
    found = []
    for function in edit.functions:
        for name, verdict in told(crate, function, said).items():
            if PROVED.match(verdict):
                found.append(Finding(name, Outcome.PROVED, []))
                continue
            lines = shows(function, name, verdict, said)
            is_for_callees = not lines and answers.is_for_callees(verdict)
            found.append(Finding(name, Outcome.CALLEES if is_for_callees else Outcome.FAILS, lines))
    return found


def guessed(crate, function):
    """The name that an `impl` of a trait has most likely: with the trait's arguments only where the type has another
    `impl` of the trait."""
    every = functions_of(function.path, text_of(f"{crate.folder}/{function.path}"))
    same = {it.types for it in every if it.types[:2] == function.types[:2]}
    return function.types[min(len(same), 2)]


def name_in_impl(crate, function):
    """The name by which a check knows a function of an `impl` of a trait, as the library that was built tells it."""
    # (the library has the name of each `impl` of a trait)
    file = f"{crate.rlib}/lang/{function.path}"
    is_built = os.path.isfile(file)
    blocks = {it[1] for it in BLOCK.finditer(text_of(file))} if is_built else {guessed(crate, function)}
    found = [it for it in function.types[1:] if it in blocks]
    return "::".join([*module_of(function.path), found[-1], function.name]) if found else None


def named_before(crate, function):
    """The name by which a check knows a function, as far as the sources and the library that was built of them tell."""
    is_drop = function.types[1:2] == (f"{function.types[0]}Drop",) if function.types else False
    if len(function.types) > 1 and not is_drop:
        return name_in_impl(crate, function)
    if not function.types:
        return "::".join([*module_of(function.path), function.name])
    if function.header.startswith("impl") and not is_drop and not is_for_whole(crate, function):
        # (a check names the arguments of the type too, but takes the end of a name that no other function has)
        sources = [os.path.relpath(it, crate.folder) for it in common.files_in(f"{crate.folder}/src")]
        every = [it for file in sources for it in functions_of(file, text_of(f"{crate.folder}/{file}"))]
        return function.name if sum(it.name == function.name for it in every) == 1 else None
    # (the name of a method has its type's module)
    home = home_of(crate, function)
    return "::".join([*module_of(home), function.types[0], function.name]) if home else None


def linked(one, other):
    """Copies a file of kept work, by a link where that serves: a check replaces those files, and changes none."""
    try:
        return os.link(one, other) if one.endswith(".oantt") else shutil.copy2(one, other)
    except OSError:
        return shutil.copy2(one, other)


def without_offers(work, room):
    """Spares a check the run in which it prints lines to begin proof files with. These are not read here, and cost a
    tenth to a third of a check. It finds no place for them, says so in a note, and goes on: a file stands where it
    would make a folder in its kept work, and the variables that are returned name no folder for its other files.
    """
    checked = next(it.path for it in os.scandir(f"{common.rtlib().KIT}/logic_built") if it.name.endswith(".oantt"))
    with open(checked, "rb") as it:
        kernel = KERNEL.search(it.read(1 << 12))
    place = f"{work}/{kernel[1].decode().replace('/', '_') if kernel else 'none'}-with-holes-offers"
    if os.path.isdir(place):
        shutil.rmtree(place)
    common.write(place, "")
    return {"TMPDIR": f"{room}/none"}


class Checks:
    """Checks of copies of a crate, each over what the ones before kept, and what they took in processor seconds."""

    def __init__(self, crate, anew):
        self.crate, self.seconds = crate, 0.0
        os.makedirs(f"{crate.folder}/out", exist_ok=True)
        self.kept = tempfile.mkdtemp(prefix="wrong-bodies-", dir=f"{crate.folder}/out")
        begin = f"{crate.folder}/out/incremental"
        self.begin = begin if not anew and os.path.isdir(begin) else None

    def check(self, layout, suspects, names, leaves_open, asked=()):
        """Checks a copy of the crate: the whole of it, or functions of these names alone. Answers that are asked for,
        by the folders of their functions' proofs, take the place of all others there."""
        with tempfile.TemporaryDirectory(prefix="wrong-bodies-") as room:
            layout.write(room, suspects)
            for folder in asked:
                common.write(f"{room}/proofs/{folder}/Answers.antt", asked[folder])
            work, rtlib = self.work(), common.rtlib()
            words = [rtlib.RATTLE, "check", *self.crate.words(["--jobs", "1"], keeps=False), "--incremental", work]
            if leaves_open:
                layout.leave_open(room)
                words.append("--allow-holes")
            for name in names:
                words += ["--only", name.removeprefix(f"{self.crate.name}::")]
            environment = without_offers(work, room) if leaves_open else {}
            ran = common.check([*rtlib.guarded(), *words], room, **environment)
        self.seconds += ran.whole
        return read(ran)

    def work(self):
        """The folder of kept work for a check: what rounds left, or before these, what `rt check` kept."""
        work = f"{self.kept}/work"
        if self.begin and not os.path.isdir(work):
            shutil.copytree(self.begin, work, symlinks=True, copy_function=linked)
        return work

    def end(self):
        """Removes what the checks kept."""
        shutil.rmtree(self.kept, ignore_errors=True)


def read(ran):
    """What a check said, that ran so."""
    ends = [*ran.after.values()]
    # (what the first took has the start of the check in it)
    seconds = {name: end - before for name, before, end in zip([*ran.after][1:], ends, ends[1:])}
    verdicts = dict(it.groups() for it in map(VERDICT.match, ran.lines) if it)
    # (these lines go on with the one before them)
    lines = re.sub(r"\n  (?=\S)", " ", "\n".join(ran.lines)).split("\n")
    is_ended = any(it == "logic=not-proved" or it.startswith(("only=", "holes=")) for it in lines)
    return Said(ran.status == 0 or ran.status == 1 and is_ended, verdicts, lines, seconds)
