"""The lines of crates/judged.tsv, one for each crate whose wrong bodies were all refused: their number, a sum of all
that they were judged by, and the date. Where the sum is that of the sources as they are, they need not be judged again;
a sample is, which the commit draws, so that a false line is found.

The sum is taken of sources alone. It has no path of a machine, no time, and nothing that is built.
"""

import hashlib
import os
import re
import subprocess
from dataclasses import dataclass
from datetime import datetime, timezone

from . import common, rattle_source
from .common import text_of
from .rattle_source import functions_of

FILE = f"{common.TOP}/crates/judged.tsv"
HEAD = "crate\tedits\tsum\tdate"
# The files of this folder that judge.
JUDGING = "answers at_hand checking common edits judging keeping laying_out rattle_source".split()


@dataclass(frozen=True)
class Line:
    """What a line says of a crate: how many edits were refused, by which sum, and when."""

    edits: int
    sum: str
    date: str


def read(text):
    """The lines of a text, by their crates.

    >>> read(f"{HEAD}\\nlow\\t2\\t5f\\t2026-01-31\\n")
    {'low': Line(edits=2, sum='5f', date='2026-01-31')}
    """
    rows = [it.split("\t") for it in text.split("\n")[1:] if it]
    return {crate: Line(int(edits), sum, date) for crate, edits, sum, date in rows}


def written(lines):
    """The text of these lines.

    >>> lines = {"low": Line(2, "5f", "2026-01-31")}
    >>> read(written(lines)) == lines
    True
    """
    rows = [f"{crate}\t{it.edits}\t{it.sum}\t{it.date}" for crate, it in sorted(lines.items())]
    return "\n".join([HEAD, *rows, ""])


def lines():
    """The lines of the repository."""
    return read(text_of(FILE)) if os.path.isfile(FILE) else {}


def logic():
    """The sum of the toolchain's logic, as `rt version` tells it."""
    said = text_of(f"{common.kit('KIT-ID')}/KIT-ID")
    found = re.search(r"\blogic (\w+)", said)
    return found[1] if found else said


def edits_of(crate):
    """The files of a crate's wrong bodies."""
    return [it for it in common.files_in(f"{crate.folder}/wrong_bodies") if it.endswith(".edit")]


def own_proofs(crate):
    """The files of a crate's proofs that belong to one function alone."""
    sources = common.files_in(f"{crate.folder}/src")
    names = {of.name for it in sources for of in functions_of(it, text_of(it))}
    own = [it for it in common.files_in(f"{crate.folder}/proofs") if os.path.basename(it) in common.OWN_PROOF]
    # (what proves the law of a type belongs to no function)
    return [it for it in own if it.split("/")[-2] in names or "/+" in it]


def read_above(crate):
    """What a check of a crate above can read of a crate's sources: all but the bodies and the proofs of functions."""
    own, parts = {*own_proofs(crate)}, common.files_in(f"{crate.folder}/specs", f"{crate.folder}/proofs")
    yield crate.name, crate.said, crate.of_kit
    for it in common.files_in(f"{crate.folder}/src"):
        path = os.path.relpath(it, crate.folder)
        yield path, rattle_source.without_bodies(path, text_of(it))
    yield from ((os.path.relpath(it, crate.folder), text_of(it)) for it in parts if it not in own)


def sum_of(crate):
    """A sum of all that the wrong bodies of a crate are judged by: the toolchain's logic, what judges, the crate's own
    files, what can be read of the crates below, and the edits."""
    here = os.path.dirname(os.path.realpath(__file__))
    found = hashlib.sha256(repr((logic(), crate.name, crate.said, crate.of_kit)).encode())
    own = [it for part in common.rtlib().PARTS for it in common.files_in(f"{crate.folder}/{part}")]
    for path in [*(f"{here}/{it}.py" for it in JUDGING), *own, *edits_of(crate)]:
        name = os.path.basename(path) if path.startswith(f"{here}/") else os.path.relpath(path, crate.folder)
        found.update(repr((name, text_of(path))).encode())
    for below in sorted(crate.below(), key=lambda it: it.name):
        for it in read_above(below):
            found.update(repr(it).encode())
    return found.hexdigest()[:32]


def commit():
    """The number of the commit that is judged, or None where there is none, as in an exported tree."""
    try:
        how = {"stdout": subprocess.PIPE, "stderr": subprocess.DEVNULL, "text": True}
        said = subprocess.run(["git", "rev-parse", "--show-toplevel", "HEAD"], cwd=common.TOP, **how)
    except OSError:
        return None
    top, _, number = said.stdout.strip().partition("\n")
    # (a tree may lie in another repository)
    return number if said.returncode == 0 and os.path.realpath(top) == common.TOP else None


def is_drawn(number, crate, edit, one_in):
    """Whether a commit draws an edit: one in so many.

    >>> drawn = [it for it in range(1000) if is_drawn("c0ffee", "low", str(it), 10)]
    >>> 70 < len(drawn) < 130, drawn == [it for it in range(1000) if is_drawn("decaf", "low", str(it), 10)]
    (True, False)
    >>> is_drawn("c0ffee", "low", "a", 1)
    True
    """
    return int(hashlib.sha256(f"{number} {crate} {edit}".encode()).hexdigest(), 16) % one_in == 0


class Drawing:
    """Which edits are judged where a crate may stand by its line: all of a crate whose line is missing or differs, and
    of the others one in so many. Where no commit draws, all are."""

    def __init__(self, one_in):
        self.one_in, self.lines, self.commit = one_in, lines(), commit() if one_in else None

    def stands(self, crate):
        """Whether a crate's line is that of its sources as they are."""
        line = self.lines.get(crate.name) if self.commit else None
        return bool(line) and (line.edits, line.sum) == (len(edits_of(crate)), sum_of(crate))

    def of(self, crate):
        """What tells by its name whether an edit of a crate is judged."""
        if not self.stands(crate):
            return lambda edit: True
        return lambda edit: is_drawn(self.commit, crate.name, edit, self.one_in)

    def tell(self, every):
        """Says how many edits were judged, and by what the others stand."""
        judged, left = sum(it.count() for it in every), sum(it.stands for it in every)
        changed = [it for it in every if not it.stands]
        whole = f"all {sum(it.count() for it in changed)} of {len(changed)} crates without a line that holds"
        drawn = sum(it.count() for it in every if it.stands)
        why = f"{whole}, and {drawn} that commit {self.commit[:12]} drew" if self.commit else "all, since no commit draws"
        print(f"wrong_bodies: {judged} of {judged + left} were judged: {why}")
        print(f"wrong_bodies: {left} stand by their lines in crates/judged.tsv")


def write(every):
    """Writes the lines of those crates of which all edits were judged and refused, and whose files are as they were
    when they were read; of others that have no edits any more, none stay."""
    found = {name: it for name, it in lines().items() if os.path.isdir(f"{common.TOP}/crates/{name}/wrong_bodies")}
    for of in every:
        name, count = of.crate.name, len(edits_of(of.crate))
        found.pop(name, None)
        if not of.failed and not of.stands and len(of.passed) == count and of.sum == sum_of(of.crate):
            found[name] = Line(count, of.sum, datetime.now(timezone.utc).strftime("%Y-%m-%d"))
            print(f"wrong_bodies: the line of {name} is written: {count} edits")
        else:
            print(f"wrong_bodies: {name} gets no line")
    common.write(FILE, written(found))
