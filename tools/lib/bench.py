"""Lays bench/ out as a repository of its own: its crates, beside the library that tools/copy_library copies there.

`rt ci` allows one `crates.txt`, at the root, and no source that it does not prove. So the sources of bench/ have names
that end in `.in`, and the repository that is made of them lies outside of this one.
"""

import contextlib
import hashlib
import os
import shutil
import subprocess
import sys

from . import common, proving
from .common import TOP, text_of

BENCH = f"{TOP}/bench"
# Where it is laid out if nothing else is said: beside this repository.
BESIDE = f"{TOP}-bench"
# The program that measures calls, and the toolchain's functions that it is linked with.
PROGRAM = "cordyceps_speed"
FUNCTIONS = ("c/libos_c.a", "c/liblibc_c.a")
# The endings of sources, and what comes after them in bench/.
SOURCES, IN = (".rt", ".antt"), ".in"
# What was laid out: a line for each file of these crates, as sha256sum writes it.
RECORD = "bench.sums"


def names():
    """The crates of bench/."""
    return sorted(os.listdir(f"{BENCH}/crates"))


def files():
    """The files of these crates, by their paths in the repository that is laid out."""
    return {os.path.relpath(it, BENCH).removesuffix(IN): it for it in common.files_in(f"{BENCH}/crates")}


def put(source, to):
    """Copies a file, in one step."""
    os.makedirs(os.path.dirname(to), exist_ok=True)
    shutil.copyfile(source, f"{to}.new")
    os.replace(f"{to}.new", to)


def sum_of(path):
    """The sum of a file, or nothing where there is none."""
    return hashlib.sha256(text_of(path).encode()).hexdigest() if os.path.isfile(path) else ""


def write_crates(top):
    """Writes the crates into a folder."""
    for path, source in files().items():
        put(source, f"{top}/{path}")


def recorded(top):
    """The sums of the files that were laid out, by their paths."""
    lines = text_of(f"{top}/{RECORD}").splitlines() if os.path.isfile(f"{top}/{RECORD}") else []
    return {path: sum for sum, _, path in (it.partition("  ") for it in lines)}


def record(top):
    """Notes the sums of the files that are laid out."""
    common.write(f"{top}/{RECORD}", "".join(f"{sum_of(it)}  {path}\n" for path, it in files().items()))


def write_lines(top):
    """Writes the lines of these crates into crates.txt there. Those of the library stay."""
    path = f"{top}/crates.txt"
    before = text_of(path).splitlines() if os.path.isfile(path) else []
    others = [it for it in before if it.replace(":", " ").split()[0] not in names()]
    common.write(path, "".join(f"{it}\n" for it in others) + text_of(f"{BENCH}/crates.txt{IN}"))


def lay_out(top):
    """Lays the repository out in a folder outside of this one, or brings it up to date. What was changed there is not
    lost: then the script stops."""
    if f"{os.path.realpath(top)}/".startswith(f"{TOP}/"):
        common.stop(f"{top} is in this repository, where rt ci would find crates that it does not prove")
    before, own = recorded(top), files()
    for path in sorted({*own, *before}):
        if sum_of(f"{top}/{path}") not in ("", before.get(path), sum_of(own.get(path, ""))):
            common.stop(f"{top}/{path} was changed there; bench/lay_out --back brings it back")
    write_crates(top)
    for path in before.keys() - own.keys():
        with contextlib.suppress(FileNotFoundError):
            os.remove(f"{top}/{path}")
    write_lines(top)
    record(top)
    ran = subprocess.run([f"{TOP}/tools/copy_library", top, "all"], capture_output=True, text=True)
    if ran.returncode:
        common.stop(f"the library was not copied: {(ran.stdout + ran.stderr).strip()}")


def bring_back(top):
    """Brings the files of these crates back that were changed there, and answers their paths in bench/."""
    own, found = files(), []
    folders = [f"{top}/crates/{name}/{part}" for name in names() for part in ("src", "specs", "proofs")]
    there = {os.path.relpath(it, top): it for it in common.files_in(*folders) if it.endswith(SOURCES)}
    if not there:
        common.stop(f"nothing is laid out in {top}")
    for path, source in there.items():
        to = f"{BENCH}/{path}{IN}"
        if sum_of(source) != sum_of(to):
            put(source, to)
            found.append(f"bench/{path}{IN}")
    for path, source in own.items():
        if path.endswith(SOURCES) and path not in there:
            os.remove(source)
            found.append(f"bench/{path}{IN}")
    record(top)
    return found


def is_built(rtlib, crate):
    """Is the library of a crate there, as of its files?"""
    return os.path.isfile(f"{crate.rlib}/format") and proving.is_left(rtlib, crate)


def take_libraries(rtlib, crate):
    """Copies the libraries below a crate that `rt ci` left in this repository, where they are of the same files."""
    here = {it.name: it for it in rtlib.crates_below(TOP)}
    for below in crate.below():
        left = here.get(below.name)
        if left and left.stamp() == below.stamp() and is_built(rtlib, left) and not is_built(rtlib, below):
            shutil.rmtree(os.path.dirname(below.rlib), ignore_errors=True)
            shutil.copytree(os.path.dirname(left.rlib), os.path.dirname(below.rlib))


def build(top):
    """Proves and builds the program in the repository that is laid out, over libraries that are proved, unless it is
    built of these files. Answers where it is."""
    rtlib, kit = common.rtlib(), common.kit(*FUNCTIONS)
    crate = {it.name: it for it in rtlib.crates_below(top)}[PROGRAM]
    kept, sum = f"{crate.folder}/out/measures", crate.stamp()
    if os.path.isfile(f"{kept}/sum") and text_of(f"{kept}/sum") == sum:
        return f"{kept}/{PROGRAM}"
    crate.out = sys.stderr
    take_libraries(rtlib, crate)
    with contextlib.redirect_stdout(sys.stderr):
        if not proving.build_below(rtlib, crate):
            common.stop("a library is not proved")
    shutil.rmtree(kept, ignore_errors=True)
    os.makedirs(kept)
    words = ["--target", "x86_64-unknown-linux-gnu", "--toolchain", f"{kit}/toolchain"]
    words += ["-o", f"{kept}/{PROGRAM}", f"{kept}/object.o", *(f"{kit}/{it}" for it in FUNCTIONS)]
    if crate.compile([], f"{kept}/object.o") or crate.call(f"{kit}/bin/rattle-link", *words):
        common.stop(f"{PROGRAM} could not be built")
    common.write(f"{kept}/sum", sum)
    return f"{kept}/{PROGRAM}"
