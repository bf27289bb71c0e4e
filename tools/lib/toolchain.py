"""A copy of the toolchain that is made of links, in which single tools are replaced by scripts."""

import os
import shlex
import shutil

# What the copy has as folders and files of its own. The scripts find the toolchain by the folder that they lie in.
FOLDERS = ("bin", "toolchain", "toolchain/bin")
SCRIPTS = ("bin/rt", "bin/rtlib.py")
# `rt try` starts a check beside the build, for a hint alone. It would take a processor, so a copy can have a check that
# does nothing.
NO_CHECK = "#!/bin/sh\n"
# What `rt try` compiles with checks of memory is the program, whose module is kept.
KEEPING = """#!/bin/sh
is_program=
for word in "$@"; do
  case $word in
    *.bc) module=$word ;;
    -fsanitize=address) is_program=yes ;;
  esac
done
if [ "$is_program" ]; then
  {copy} "$module" {kept}
  exit 1
fi
exec {tool} "$@"
"""
# What `rattle build` compiles is one module, which is kept with the words for it, and then compiled.
KEEPING_ALL = """#!/bin/sh
for word in "$@"; do
  case $word in
    *.bc) {copy} "$word" {kept}/module.bc ;;
  esac
done
printf '%s\\n' "$@" > {kept}/words
exec {tool} "$@"
"""
# How a module is read: as the toolchain's own build does, without the machine's settings.
READ = ["--target=x86_64-unknown-linux-gnu", "-march=x86-64", "--no-default-config", "-x", "ir"]


def link(kit, copy):
    """Makes the copy: links, but for its own folders and the scripts."""
    for folder in ("", *FOLDERS):
        os.makedirs(os.path.join(copy, folder), exist_ok=True)
        for name in os.listdir(os.path.join(kit, folder)):
            path = os.path.join(folder, name)
            if path in SCRIPTS:
                shutil.copy(f"{kit}/{path}", f"{copy}/{path}")
            elif path not in FOLDERS:
                os.symlink(f"{kit}/{path}", f"{copy}/{path}")


def replace(path, text):
    """Writes a script in the place of a link."""
    os.remove(path)
    with open(path, "w", encoding="utf-8") as it:
        it.write(text)
    os.chmod(path, 0o755)


def without_hints(kit, copy):
    """Makes a copy whose `rt try` starts no check beside the build, and answers its rt."""
    link(kit, copy)
    replace(f"{copy}/bin/rattle", NO_CHECK)
    return f"{copy}/bin/rt"


def keep_module(kit, copy, kept):
    """Has the compiler of a copy keep the module of a program as the file `kept`, and compile it no further."""
    replace_compiler(kit, copy, KEEPING, kept)


def keep_what_is_built(kit, copy, kept):
    """Has the compiler of a copy keep each module that it compiles as `module.bc` in the folder `kept`, beside its
    words."""
    replace_compiler(kit, copy, KEEPING_ALL, kept)


def replace_compiler(kit, copy, script, kept):
    words = {"copy": shutil.which("cp"), "kept": kept, "tool": f"{kit}/toolchain/bin/clang"}
    replace(f"{copy}/toolchain/bin/clang", script.format(**{name: shlex.quote(word) for name, word in words.items()}))
