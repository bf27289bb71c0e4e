"""Proves functions and crates over the libraries that `rt ci` left in crates/*/out/rlib, and builds missing ones.

It needs no other file of tools/, since tools/copy_library brings it to other repositories with tools/prove_crate.
"""

import os
import re
import shutil
import subprocess
import sys
import time

TOP = os.path.dirname(os.path.dirname(os.path.dirname(os.path.realpath(__file__))))
NAME = "prove_crate"
# A line with which a check tells that a function is proved, and one that is told at once.
PROVED = re.compile(r"^fn (\S+): proved", re.M)
TOLD_AT_ONCE = re.compile(r"so far: |rt: ")


def stop(why):
    print(f"{NAME}: {why}", file=sys.stderr)
    sys.exit(2)


def say(text):
    print(f"{NAME}: {text}", flush=True)


def toolchain():
    """The toolchain's own words for a check, as a module."""
    rt = shutil.which("rt") or stop("the toolchain's command rt is not on the path")
    folder = os.path.dirname(os.path.realpath(rt))
    if not os.path.isfile(f"{folder}/rtlib.py"):
        stop(f"the toolchain in {os.path.dirname(folder)} has no bin/rtlib.py")
    sys.path.insert(0, folder)
    return __import__("rtlib")


def run(rtlib, crate, verb, *words):
    """Runs a check or a build of a crate, which begins with what was kept. Returns its status and what it said."""
    os.makedirs(f"{crate.folder}/out/one", exist_ok=True)
    # (a whole crate gets as many processors as the toolchain chooses)
    jobs = ["--jobs", "1"] if "--only" in words else []
    # (a build tells no progress)
    progress = ["--progress"] if verb == "check" else []
    words = [rtlib.RATTLE, verb, *crate.words(jobs, keeps=False), "--incremental", "out/one", *progress, *words]
    how = {"stdin": subprocess.DEVNULL, "stdout": subprocess.PIPE, "stderr": subprocess.STDOUT, "text": True}
    said = []
    with subprocess.Popen([*rtlib.guarded(), *words], cwd=crate.folder, errors="replace", **how) as it:
        for line in it.stdout:
            said.append(line)
            if TOLD_AT_ONCE.match(line):
                print(line, end="", flush=True)
    return it.returncode, "".join(it for it in said if not re.match(r"checked |so far: ", it))


def is_left(rtlib, crate):
    """Is the library that `rt ci` left, or a run of this script, of the files as they are?

    `rt ci` leaves no sum of them. So the first run takes a library that is newer than its files, and writes a sum.
    Whoever removes the library removes it."""
    if os.path.exists(f"{crate.folder}/out/rlib/stamp"):
        return crate.is_built()
    known = rtlib.text_of(f"{crate.folder}/out/rlib/sum")
    if known is None and max(map(os.path.getmtime, rtlib.files_of(crate.folder))) < os.path.getmtime(crate.rlib):
        write(f"{crate.folder}/out/rlib/sum", crate.stamp())
        return True
    return known == crate.stamp()


def write(path, text):
    with open(path, "w", encoding="utf-8") as it:
        it.write(text)


def build(rtlib, crate, why):
    """Builds a library, and answers whether it is proved."""
    say(f"{crate.name} {why}, so it is proved and built, which takes minutes for a large one")
    began, sum, new = time.monotonic(), crate.stamp(), f"{crate.folder}/out/rlib.new"
    shutil.rmtree(new, ignore_errors=True)
    os.makedirs(new)
    status, said = run(rtlib, crate, "build", "-o", f"{new}/{os.path.basename(crate.rlib)}")
    if status:
        print(said, end="")
        say(f"{crate.name} is not proved")
        return False
    # (of what changed meanwhile the sum is that of no files, so that it is built anew)
    write(f"{new}/sum", sum if sum == crate.stamp() else "")
    shutil.rmtree(os.path.dirname(crate.rlib), ignore_errors=True)
    os.rename(new, os.path.dirname(crate.rlib))
    say(f"{crate.name} is proved and built, in {time.monotonic() - began:.0f} s")
    return True


def build_below(rtlib, crate):
    """Builds the libraries below a crate that are missing or changed, and those above these. Answers whether all are
    proved."""
    new = []
    for below in crate.below():
        if any(it in new for it in below.below()):
            why = "stands on what is built anew"
        elif not os.path.isfile(f"{below.rlib}/format"):
            why = "is not built"
        else:
            why = "" if is_left(rtlib, below) else "has changed"
        if why and not build(rtlib, below, why):
            return False
        new += [below] * bool(why)
    return True


def prove(rtlib, crate, path=None):
    """Proves a function or the crate, over its libraries, and answers whether it is proved."""
    began, what = time.monotonic(), f"{path} of {crate.name}" if path else crate.name
    status, said = run(rtlib, crate, "check", *(["--only", path] if path else []))
    if path and f"has no function `{path}`" in said:
        stop(f"{crate.name} has no function {path}")
    found = PROVED.findall(said)
    if status:
        print(said, end="")
    say(f"{what} is {'not ' if status else ''}proved, in {time.monotonic() - began:.0f} s; functions: {len(found)}")
    return not status
