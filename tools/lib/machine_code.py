"""The machine code of the static library for C: a proved module as an object, as assembly and as code to be inlined."""

import os
import re
import shutil
import subprocess
from collections import namedtuple

from . import common
from .common import TOP

HEAP = f"{TOP}/c/heap.c"
# The functions by which proved code asks for memory, and their names in the library, as c/heap.c has them.
ASKS, NAMES = re.compile(r"\brattle_(?=(alloc|realloc|dealloc)\b)"), "cordyceps_heap_"
# The attributes of the module's functions, to which is added that a table says how to unwind each.
ATTRIBUTES = re.compile(r'(?<= = \{ nounwind )(?=[^}]*")')
TABLES = "uwtable "
TARGET = "--target=x86_64-unknown-linux-gnu"
OF_HEAP = [TARGET, "--no-default-config", "-std=c99", "-O2", "-fPIC", "-ffunction-sections"]
# The compilers whose linkers can inline a module, the oldest first: each one reads what an older one wrote.
INLINING = (*(f"clang-{it}" for it in range(15, 23)), "clang")
SECTION = ".llvm.lto"
# A label that is local to an object. rustc has assembly among code of its own, whose labels are of the same names.
LABEL, OWN = re.compile(r"(?<![\w.])\.L(?=[A-Za-z])"), re.compile(r"\.L(library|heap)_")

# What assemblers choose: the form of what fills a gap between functions.
FILLING = re.compile(r"((data16|cs)\s+)*(nop\w*|xchgw\s+%ax, %ax)")
INSTRUCTION = re.compile(r" *([0-9a-f]+):\s+(\S.*)")
JUMP = re.compile(r"(j\w+|callq?)\s+0x([0-9a-f]+) <")
RELOCATION = re.compile(r"\s+[0-9a-f]+:\s+(R_X86_64_\w+)\s+(\S+)")

# A module: its file, and the words with which the toolchain compiled it, without its names and those of its object.
Module = namedtuple("Module", "path words")


class NotMade(Exception):
    """Says what could not be made, or has other code than what was proved."""


def tool(kit, name, *words, **how):
    """Runs a tool of LLVM that the toolchain's compiler has in it, and answers what it wrote."""
    how = {"capture_output": True, "text": True, "errors": "replace", **how}
    ran = subprocess.run([name, *words], executable=f"{kit}/toolchain/bin/clang", **how)
    if ran.returncode:
        raise NotMade(f"{name} of the toolchain failed: {ran.stderr.strip()}")
    return ran.stdout


def module_of(kept):
    """The module that a toolchain kept in a folder, as `toolchain.keep_what_is_built` has it."""
    words = common.text_of(f"{kept}/words").splitlines()
    at = words.index("-x")
    words = [it for it in words[:at] + words[at + 5 :] if it != "-c" and not it.startswith("--sysroot=")]
    return Module(f"{kept}/module.bc", words)


def renamed(text):
    """The text of a module that asks for memory by the library's functions.

    >>> renamed("%r0 = call ptr @rattle_alloc(i64 %a)")
    '%r0 = call ptr @cordyceps_heap_alloc(i64 %a)'
    """
    return ASKS.sub(NAMES, text)


def with_tables(text):
    """The text of a module for whose functions there are unwind tables.

    >>> with_tables('attributes #0 = { nounwind "probe-stack"="a" }')
    'attributes #0 = { nounwind uwtable "probe-stack"="a" }'
    """
    text, count = ATTRIBUTES.subn(TABLES, text)
    if not count:
        raise NotMade("the attributes of the module's functions are other ones than were known")
    return text


def as_text(compiler, module):
    """The words with which a compiler writes a module as text, as it is."""
    return [compiler, TARGET, "-Xclang", "-disable-llvm-passes", "-S", "-emit-llvm", "-x", "ir", module, "-o", "-"]


def compile(kit, module, folder):
    """Compiles a proved module and c/heap.c into cordyceps.o and heap.o in a folder, and into cordyceps.s, the assembly
    of both. Raises `NotMade` unless the module's object has the code of the one that the toolchain makes of it."""
    text = tool(kit, *as_text("clang", module.path), "--no-default-config")
    common.write(f"{folder}/edited.ll", with_tables(renamed(text)))
    tool(kit, "clang", *module.words, "-c", "-x", "ir", module.path, "-o", f"{folder}/proved.o")
    tool(kit, "clang", *module.words, "-c", "-x", "ir", f"{folder}/edited.ll", "-o", f"{folder}/cordyceps.o")
    assembly = ["-fno-addrsig", "-S", "-x", "ir", f"{folder}/edited.ll", "-o", f"{folder}/library.s"]
    tool(kit, "clang", *module.words, *assembly)
    compile_heap(kit, folder)
    common.write(f"{folder}/cordyceps.s", "".join(assembly_of(f"{folder}/{it}.s") for it in ("library", "heap")))
    if [*map(renamed, code_of(kit, f"{folder}/proved.o"))] != code_of(kit, f"{folder}/cordyceps.o"):
        raise NotMade("with unwind tables the code is not the proved module's")


def assembly_of(file):
    """The assembly in a file, with labels of its own, and without what names files and compilers."""
    name = os.path.basename(file).removesuffix(".s")
    lines = common.text_of(file).splitlines(keepends=True)
    kept = "".join(it for it in lines if not it.startswith(("\t.file", "\t.ident")))
    return LABEL.sub(f".L{name}_", kept) + "\t.text\n"


def compile_heap(kit, folder):
    """Compiles c/heap.c into heap.o and heap.s in a folder."""
    tool(kit, "clang", *OF_HEAP, "-c", HEAP, "-o", f"{folder}/heap.o")
    tool(kit, "clang", *OF_HEAP, "-fno-addrsig", "-S", HEAP, "-o", f"{folder}/heap.s")


def code_of(kit, file):
    """The code of an object, as lines: each instruction with its relocations, and the bytes of data. What assemblers
    choose is left out: how gaps are filled, how a call within the object is named, and how far a jump is, which is to
    the number of an instruction here and not to an address."""
    listed = tool(kit, "llvm-objdump", "-dr", "--no-show-raw-insn", file).splitlines()
    places = {(section, at): number for section, at, number, _ in instructions(listed)}
    lines = []
    for section, _, number, text in instructions(listed):
        to = JUMP.match(text)
        if to and (section, to[2]) in places:
            text = f"{to[1]} {places[section, to[2]]}"
        lines.append(f"{section} {number}: {' '.join(text.split())}")
    return lines + data_of(kit, file)


def fault_of_assembled(kit, assembled, objects):
    """What is to be said if an object that was assembled has other code than these together; else nothing."""
    wanted = [line for it in objects for line in code_of(kit, it)]
    is_same = sorted(wanted) == sorted(code_of(kit, assembled))
    return "" if is_same else "gcc assembles other code from the library's assembly than the archive has"


def instructions(listed):
    """Of each instruction that a disassembler listed: its section, its address, its number there and its text. Those
    that fill gaps are left out."""
    section, number = "", 0
    for line in listed:
        if line.startswith("Disassembly of section "):
            section, number = line.split()[-1], 0
        relocation, found = RELOCATION.fullmatch(line), INSTRUCTION.fullmatch(line)
        if relocation:
            yield section, "", number, relocation[1].replace("PLT32", "PC32") + " " + OWN.sub(".L", relocation[2])
        elif found and not FILLING.match(found[2]):
            # (what follows a # tells where an address leads)
            yield section, found[1], number, found[2].partition(" # ")[0].strip()
            number += 1


def data_of(kit, file):
    """The bytes of data, and where addresses are put into it."""
    lines = []
    for name in re.findall(r"^ +\d+ (\.(?:ro)?data\S*)", tool(kit, "llvm-objdump", "-h", file), re.M):
        held = OWN.sub(".L", tool(kit, "llvm-objdump", "-sr", "-j", name, file)).splitlines()[3:]
        lines += [name, *held] if any(held) else []
    return lines


def inlined(module, folder):
    """Prepares a module for linkers that inline it, as thin.bc in a folder, and answers the compiler that did. None:
    no compiler is there that reads it."""
    for name in filter(shutil.which, INLINING):
        ran = subprocess.run(as_text(name, module.path), capture_output=True, text=True, errors="replace")
        if ran.returncode:
            continue
        common.write(f"{folder}/inlined.ll", with_tables(renamed(ran.stdout)))
        words = [name, TARGET, "-O2", "-flto=thin", "-fPIC", "-w", "-c", "-x", "ir", f"{folder}/inlined.ll"]
        if not subprocess.run([*words, "-o", f"{folder}/thin.bc"], capture_output=True).returncode:
            return name
    return None


def archive(kit, folder, to):
    """Makes the archive of the objects in a folder, with what linkers can inline, where that is there."""
    if os.path.isfile(f"{folder}/thin.bc"):
        words = ["--add-section", f"{SECTION}={folder}/thin.bc", "--set-section-flags", f"{SECTION}=exclude,readonly"]
        tool(kit, "llvm-objcopy", *words, f"{folder}/cordyceps.o")
    tool(kit, "llvm-ar", "qcsD", to, f"{folder}/cordyceps.o", f"{folder}/heap.o")
