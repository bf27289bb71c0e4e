"""The static library for C: the proved crate cordyceps_c, built into an archive with c/heap.c, and into assembly."""

import io
import os
import re
import shutil
import subprocess
import tempfile

from . import common, machine_code, proving, toolchain
from .common import TOP

CRATE = "cordyceps_c"
NAME = "libcordyceps.a"
ASSEMBLY = "cordyceps.s"
NOTICES = "NOTICES"
MADE = (NAME, ASSEMBLY, NOTICES)
HEADER, HEAP_HEADER = f"{TOP}/c/cordyceps.h", f"{TOP}/c/cordyceps_heap.h"
HEADERS = (HEADER, HEAP_HEADER, f"{TOP}/c/cordyceps_waker.h")
# What is told of an archive that compilers cannot inline.
NOT_INLINED = "not to be inlined, as there is no clang of LLVM 15 to 22"
PARTS = ("src", "specs", "proofs")
PROVED = re.compile(r"^logic=proved functions=(\d+) axioms=(\d+).*$", re.M)
# The least processor that has what is built. For one that has more, no code would differ, but a compiler inlines
# nothing into code for a lesser one.
CPU = ["--cpu", "x86-64"]
MINUTES = "about four minutes where ./gate or rt ci left the libraries below it, and else an hour"
# A function of a crate, as a module names it.
OF_CRATE = re.compile(r'^define [^@\n]*@"?(\w+)::', re.M)
# (what the archive is made by, besides the toolchain)
MAKERS = (machine_code.HEAP, *(os.path.realpath(it) for it in (__file__, machine_code.__file__, toolchain.__file__)))


class Lacks(Exception):
    """Says what is not there that an archive is made from."""


class NotProved(Exception):
    """Says why an archive was not made."""


def version():
    """The version of the newest section of the changes, and whether that is closed."""
    number, more = re.search(r"^## (\d+\.\d+\.\d+)(.*)", common.text_of(f"{TOP}/CHANGELOG.md"), re.M).groups()
    return number, "not released" not in more


def pkg_config(prefix, library):
    """The file for pkg-config of a library that lies in a folder below a prefix."""
    filled = {"PREFIX": prefix, "INCLUDE": "${prefix}/include", "LIBRARY": f"${{prefix}}/{library}"}
    return template("cordyceps.pc", VERSION=version()[0], **filled)


def template(name, **filled):
    """The text of a file of c/release/, in which names like @VERSION@ are filled in."""
    text = common.text_of(f"{TOP}/c/release/{name}")
    for it, by in filled.items():
        text = text.replace(f"@{it}@", by)
    return text


def crate_of(rtlib):
    return {it.name: it for it in rtlib.crates_below(TOP)}[CRATE]


def sum_of(crate, parts=PARTS, more=()):
    """A sum of all that the archive is made from and by: these parts of the crates, and more files."""
    files = common.files_in(*(f"{it.folder}/{part}" for it in (crate, *crate.below()) for part in parts))
    inlining = [shutil.which(it) for it in machine_code.INLINING]
    return common.sum_of([*files, *MAKERS, *more], inlining, [(it.name, it.of_kit) for it in (crate, *crate.below())])


def is_fresh(rtlib, crate):
    """Are the libraries below the crate there, as of the files that they were proved from?"""
    return all(os.path.isfile(f"{it.rlib}/format") and proving.is_left(rtlib, it) for it in crate.below())


def kept(crate, sum):
    """What is told of the archive that is kept, if it was made from what this is the sum of."""
    said = f"{crate.folder}/out/c/said"
    if all(os.path.isfile(f"{crate.folder}/out/c/{it}") for it in (*MADE, "said")):
        before, _, told = common.text_of(said).partition("\n")
        return told.strip() if before == sum else None
    return None


def is_lacking():
    """Is there neither an archive of these files nor all that it is made from?"""
    rtlib = common.rtlib()
    crate = crate_of(rtlib)
    return kept(crate, sum_of(crate)) is None and not is_fresh(rtlib, crate)


def build(builds_below):
    """Proves the crate and builds its archive, unless the one that is kept is of these files. Answers its path, and
    what the proof came to. Its assembly and the licences lie beside it. Where libraries below are missing or older than
    their files, they are built, which takes minutes, or, without `builds_below`, there is no archive."""
    rtlib, kit = common.rtlib(), common.kit(*common.TOOLS)
    crate = crate_of(rtlib)
    place, sum = f"{crate.folder}/out/c", sum_of(crate)
    told = kept(crate, sum)
    if told is not None:
        return f"{place}/{NAME}", told
    below(rtlib, crate, builds_below)
    os.makedirs(place, exist_ok=True)
    with tempfile.TemporaryDirectory(prefix="archive-", dir=place) as room:
        proved = PROVED.search(prove(rtlib, crate, kit, room, ["--incremental", "out/one"]))
        told = f"functions: {proved[1]}; trusted of C: {proved[2]}; {made(kit, room)}"
        for name in MADE:
            os.replace(f"{room}/{name}", f"{place}/{name}")
        common.write(f"{place}/said", f"{sum}\n{told}\n")
    return f"{place}/{NAME}", told


def below(rtlib, crate, builds_below):
    """Sees that the libraries below the crate are there."""
    if not is_fresh(rtlib, crate):
        if not builds_below:
            raise Lacks("the libraries below cordyceps_c are not built")
        if not proving.build_below(rtlib, crate):
            raise NotProved("a library below cordyceps_c is not proved")


def prove(rtlib, crate, kit, folder, how=()):
    """Proves the crate and builds it into an archive of its own, made.a in a folder, which gets the module too. Answers
    what the toolchain said."""
    crate.out = io.StringIO()
    os.makedirs(f"{crate.folder}/out/one", exist_ok=True)
    copy = f"{folder}/toolchain"
    toolchain.link(kit, copy)
    toolchain.keep_what_is_built(kit, copy, folder)
    words = [rtlib.RATTLE, "build", *crate.words([], keeps=False), *how, *CPU]
    words += ["--toolchain", f"{copy}/toolchain", "--backend", "llvm", "-o", f"{folder}/made.a"]
    streams = {"stdin": subprocess.DEVNULL, "stdout": subprocess.PIPE, "stderr": subprocess.STDOUT, "text": True}
    ran = subprocess.run([*rtlib.guarded(), *words], cwd=crate.folder, errors="replace", **streams)
    if ran.returncode or not PROVED.search(ran.stdout) or not os.path.isfile(f"{folder}/made.a"):
        raise NotProved(f"cordyceps_c is not proved:\n{ran.stdout.rstrip()}")
    return ran.stdout


def made(kit, folder):
    """Makes the archive, the assembly and the licences of the module that a proof left in a folder, and answers what
    linkers can do with the archive."""
    module = machine_code.module_of(folder)
    try:
        machine_code.compile(kit, module, folder)
        by = machine_code.inlined(module, folder)
        machine_code.archive(kit, folder, f"{folder}/{NAME}")
        common.write(f"{folder}/{NOTICES}", notices(licences(kit, folder)))
    except machine_code.NotMade as why:
        raise NotProved(f"the proved module gave no archive: {why}") from None
    return f"to be inlined as {by} prepared it" if by else NOT_INLINED


def licences(kit, folder):
    """Of each part of the toolchain that has functions in the module in a folder, the files of its licence."""
    names = {*OF_CRATE.findall(common.text_of(f"{folder}/edited.ll"))} - {*os.listdir(f"{TOP}/crates")}
    found = {it: common.files_in(f"{kit}/rattle/{it}") for it in sorted(names)}
    return {it: [file for file in files if os.path.basename(file).startswith("LICENSE")] for it, files in found.items()}


def notices(licences):
    """The text with all licences, by the parts of the toolchain that have them."""
    parts = [f"The library cordyceps:\n\n{common.text_of(f'{TOP}/LICENSE')}"]
    for it, files in licences.items():
        parts += [f"The part {it} of the Rattle toolchain:\n\n{common.text_of(file)}" for file in files]
    lacking = ", ".join(it for it, files in licences.items() if not files)
    parts += [f"No licence was found for these parts of the Rattle toolchain: {lacking}.\n"] * bool(lacking)
    return "\n----\n\n".join(parts)
