"""What the scripts of tools/ share: where the repository and its toolchain are, what --help says, and how they end."""

import argparse
import functools
import hashlib
import os
import re
import shutil
import signal
import subprocess
import sys
import tempfile
from collections import namedtuple

TOP = os.path.dirname(os.path.dirname(os.path.dirname(os.path.realpath(__file__))))
PATH = os.path.relpath(os.path.realpath(sys.argv[0]), TOP)
NAME = os.path.basename(PATH)
# The toolchain's compiler and linker, in its folder.
TOOLS = ("toolchain/bin/clang", "toolchain/bin/ld.lld")
# The parts of a function's proof. They belong to it alone: what calls it reads its contract.
OWN_PROOF = ("Answers.antt", "Invariants.antt", "Proof.antt")
# The line with which a check tells that it has ended with a function or a closure.
CHECKED = re.compile(r"checked (\S+), \d+ of \d+$")
TICKS = os.sysconf("SC_CLK_TCK")
MISSING = "it was called in another way than this, or lacks something that it needs: a line says what"


# What a check came to: its status, its lines, the processor seconds that it had used when it ended with each function,
# by the function's name, those that it used in all, and its greatest memory in KB.
Checked = namedtuple("Checked", "status lines after whole memory")


class Arguments(argparse.ArgumentParser):
    """Reads a script's arguments. --help prints its text, its arguments and its exit statuses."""

    def __init__(self, text, statuses=("all passed", "something failed")):
        how = {"formatter_class": argparse.RawDescriptionHelpFormatter, "allow_abbrev": False}
        super().__init__(prog=PATH, description=text, **how)
        lines = [f"  {number}  {it}" for number, it in enumerate(statuses)]
        self.epilog = "\n".join(["exit status:", *lines, f"  2  {MISSING}"])

    def add_pattern(self, help):
        """Takes a pattern of names, WORD, which may be left out."""
        self.add_argument("word", nargs="?", default="", type=pattern, metavar="WORD", help=help)

    def error(self, message):
        stop(f"{message}; {PATH} --help says more")


def pattern(word):
    """Reads an argument that is a pattern of names."""
    try:
        return re.compile(word)
    except re.error as why:
        raise argparse.ArgumentTypeError(f"{word} is no pattern: {why}") from None


def stop(why):
    """Ends the script where it cannot do what it is for, with status 2 and a line that says why."""
    print(f"{NAME}: {why}", file=sys.stderr)
    sys.exit(2)


def text_of(path):
    with open(path, encoding="utf-8") as it:
        return it.read()


def write(path, text):
    """Writes a file in one step, so that no reader meets half of it."""
    os.makedirs(os.path.dirname(path), exist_ok=True)
    with tempfile.NamedTemporaryFile("w", dir=os.path.dirname(path), delete=False, encoding="utf-8") as it:
        it.write(text)
    os.replace(it.name, path)


def files_in(*folders):
    """The files of these folders, in order."""
    return sorted(f"{at}/{name}" for folder in folders for at, _, names in os.walk(folder) for name in names)


def sum_of(files, *more):
    """A sum of the toolchain, of these files of the repository with their paths, and of more values."""
    found = hashlib.sha256(repr(more).encode())
    for file in (f"{kit('KIT-ID')}/KIT-ID", *files):
        with open(file, "rb") as it:
            found.update(repr((os.path.relpath(file, TOP), it.read())).encode())
    return found.hexdigest()


def lanes(memory=0):
    """How many processes to run side by side: one for each processor, as far as each has so many KB of free memory."""
    count = len(os.sched_getaffinity(0))
    free = int(re.search(r"^MemAvailable: +(\d+)", text_of("/proc/meminfo"), re.M)[1])
    return max(min(count, free // memory if memory else count), 1)


def kit(*paths):
    """The folder of the toolchain, which has these files."""
    rt = shutil.which("rt")
    if not rt:
        stop("the toolchain's command rt is not on the path")
    folder = os.path.dirname(os.path.dirname(os.path.realpath(rt)))
    for path in paths:
        if not os.path.isfile(f"{folder}/{path}"):
            stop(f"the toolchain in {folder} has no {path}")
    return folder


@functools.lru_cache(None)
def rtlib():
    """The toolchain's own words for a check, as a module."""
    sys.path.insert(0, f"{kit('bin/rtlib.py')}/bin")
    return __import__("rtlib")


def used(pid):
    """The processor seconds that a running process and those that it started have used."""
    seconds = 0.0
    # (what it started runs in processes that count as its own once they have ended)
    for each in (pid, *children_of(pid)):
        try:
            # (a name in parentheses stands before the fields)
            fields = text_of(f"/proc/{each}/stat").rpartition(")")[2].split()
        except OSError:
            continue
        seconds += sum(map(int, fields[11:15])) / TICKS
    return seconds


def children_of(pid):
    found = []
    for thread in os.listdir(f"/proc/{pid}/task"):
        try:
            found += text_of(f"/proc/{pid}/task/{thread}/children").split()
        except OSError:
            continue
    return found


def check(words, folder, **environment):
    """Runs a check in a folder, with these variables set, and follows what it costs."""
    lines, after = [], {}
    environment = {**os.environ, **environment}
    how = {"stdin": subprocess.DEVNULL, "stdout": subprocess.PIPE, "stderr": subprocess.STDOUT, "text": True}
    running = subprocess.Popen([*words, "--progress"], cwd=folder, env=environment, errors="replace", **how)
    for line in running.stdout:
        lines.append(line.rstrip("\n"))
        found = CHECKED.match(lines[-1])
        if found:
            after[found[1]] = used(running.pid)
    _, status, usage = os.wait4(running.pid, 0)
    running.returncode = os.waitstatus_to_exitcode(status)
    return Checked(running.returncode, lines, after, usage.ru_utime + usage.ru_stime, usage.ru_maxrss)


# The modes of the program, each with the scripts of scripts/ that it runs. Mode share reads none.
SCRIPTS = {
    "list": "list blocks greatest_numbers ends walks splits cursors cursor_calls splices whole_lists",
    "stack": "stack stack_moves pushed_again",
    "sorted": "sorted sorted_orders popped_in_order",
    "transfer": "transfer taken_between overtaken rooms_come_back transfer_parties",
    "queue": "queue swapped_not_linked stub_put_in not_there batches rooms_used_again one_holder linked_late"
    " queue_batches queue_parties",
    "share": "share",
}
MODES = {name: mode for mode, names in SCRIPTS.items() for name in names.split()}


def build_libraries(crate):
    """Builds the libraries below a crate that are missing. What `rt ci` left, it left for the files as they are."""
    for below in crate.below():
        # (`rt ci` leaves its libraries without a stamp)
        is_left = os.path.isdir(below.rlib) and not os.path.exists(f"{os.path.dirname(below.rlib)}/stamp")
        if not is_left and not below.is_built() and subprocess.run(["rt", "lib"], cwd=below.folder).returncode:
            stop(f"{below.name} could not be built")


def left_out(what, needs):
    """Says what is left out for want of a command, and answers whether that is so."""
    lacks = [it for it in needs if not shutil.which(it)]
    if lacks:
        print(f"{NAME}: left out {what}: there is no {' and no '.join(lacks)}", flush=True)
    return bool(lacks)


def verdict(passed, failed):
    """Writes the last line of a script that judges, and answers its status."""
    print(f"{passed} passed, {failed} failed")
    return 1 if failed else 0


def run(main):
    """Runs a script, and ends with its status, with 130 where it was interrupted, or as `stop` where a file or a folder
    that it needs is not there, is full or cannot be written."""
    # (a job in the background ignores interrupts, and what it starts would too)
    signal.signal(signal.SIGINT, signal.default_int_handler)
    try:
        sys.exit(main())
    except KeyboardInterrupt:
        sys.exit(130)
    except OSError as why:
        stop(why)
