"""What tools/first_run tries where something is missing that ./test and ./gate need: a line says what, and nothing else
is done. Where the libraries are not built, the tests in C and in Rust are left out, unless they get leave."""

import os
import time

from .common import write

# The scripts that say so, and what each writes its line for.
SCRIPTS = {"test": "test", "gate": "gate", "tools/test_unproved": "test_unproved"}
TEMPORARY = "the folder for temporary files, "
# The archive without proof, in a checkout.
ARCHIVE = "crates/cordyceps_c/out/unproved"
# The seconds in which all are to have said it.
LIMIT = 60


def lines(copy, expect, said, command=(), **how):
    """What is wrong with the ends of the scripts, each of which has to say this of what is missing."""
    faults = []
    for script, name in SCRIPTS.items():
        ran = copy.run(command=[*command, f"{copy.top}/{script}"], **how)
        faults += [f"{script}: {it}" for it in expect(ran, 2, "", f"{name}: {said}")]
    return faults


def faults(copy, expect, without):
    """What is wrong where Python or room for temporary files is missing. WITHOUT makes an environment that lacks a
    command."""
    began, found = time.time(), []
    for name in ("test", "gate"):
        ran = copy.run(command=[f"{copy.top}/{name}"], **without(copy, "python3"))
        found += [f"{name}: {it}" for it in expect(ran, 2, "", f"{name}: python3 is not on the path")]
    for folder in (f"{copy.temporary}/none", f"{copy.top}/replay"):
        found += lines(copy, expect, f"{TEMPORARY}{folder}, is not there", environment={"TMPDIR": folder})
    limited = ["bash", "-c", 'ulimit -f 1024 && exec "$0" "$@"']
    found += lines(copy, expect, f"{TEMPORARY}{copy.temporary}, cannot be written, or has no ", limited)
    return found + (["it took too long to say so"] if time.time() - began > LIMIT else []) + copy.left_over()


def faults_where_not_writable(copy, expect, nobody):
    """What is wrong in a checkout that the user cannot write, as whom the words NOBODY start a command."""
    return lines(copy, expect, "the folder crates/cordyceps of the checkout cannot be written", nobody)


def faults_without_leave(copy):
    """What is wrong where the tests in C and in Rust run as ./gate runs them, beside an archive without proof: they may
    not take it."""
    for name in ("libcordyceps.a", "archive"):
        write(f"{copy.top}/{ARCHIVE}/{name}", "")
    ran = [(it, copy.run(command=[f"{copy.top}/tools/{it}"])) for it in ("c_tests", "rust_tests")]
    for name in ("libcordyceps.a", "archive"):
        os.remove(f"{copy.top}/{ARCHIVE}/{name}")
    return [f"{it}: {ended}" for it, ended in ran if ended.status or f"{it}: left out the tests: " not in ended.out]
