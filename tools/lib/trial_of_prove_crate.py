"""What tools/first_run tries of tools/prove_crate in a copy of the library: which libraries it builds, and how it
ends."""

import os
import shutil

from . import common, toolchain
from .common import text_of, write

# A stand-in for the prover, which writes what it is called for to a log. It knows one function of each crate, and
# refuses the crate BAD. Like the prover, it refuses a build that is asked for its progress.
RATTLE = """#!/bin/sh
[ "$2" = --crate-name ] || exit 0
verb=$1 name=$3
echo "$verb $name" >> "$STAND_IN_LOG"
while [ $# -gt 0 ]; do
  [ "$1" != -o ] || { mkdir -p "$2" && touch "$2/format"; }
  if [ "$verb $1" = "build --progress" ]; then
    echo "error: unexpected argument '--progress' found"
    exit 2
  fi
  if [ "$1" = --only ] && [ "$2" != known ]; then
    echo "rattle: error: \\`$name\\` has no function \\`$2\\`: help: write another"
    exit 2
  fi
  shift
done
echo "so far: 1 of 1 functions checked"
[ "$name" != "${BAD-}" ] || { echo "fn $name::known: not proved"; exit 1; }
echo "fn $name::known: proved"
"""
START = "cordyceps_start"
ALL = ["build cordyceps_base", "build cordyceps_list", f"check {START}"]


class Trial:
    """A copy of a checkout's lists in another repository, and the runs of tools/prove_crate there."""

    def __init__(self, checkout, other):
        self.checkout, self.other, self.faults = checkout, other, []
        kit = f"{os.path.dirname(other)}/kit of a proof"
        toolchain.link(common.kit(), kit)
        toolchain.replace(f"{kit}/bin/rattle", RATTLE)
        self.path = f"{kit}/bin:{os.environ['PATH']}"
        checkout.run(command=[f"{checkout.top}/tools/copy_library", other, "lists"])

    def checked(self, when, status, last, called, *words, bad=""):
        """Runs tools/prove_crate, which ends so, with a last line that begins so, and calls the prover for this."""
        environment = {"PATH": self.path, "BAD": bad}
        ran = self.checkout.run(command=[f"{self.other}/tools/prove_crate", *words], at="/", environment=environment)
        found = text_of(self.checkout.log).splitlines() if os.path.exists(self.checkout.log) else []
        write(self.checkout.log, "")
        lines = (ran.out + ran.err).splitlines()
        has_ended = ran.status == status and bool(lines) and lines[-1].startswith(f"prove_crate: {last}")
        if found != called or not has_ended:
            self.faults.append(f"{when}: it called the prover for {found}, and ended so: {ran}")

    def run(self):
        proved, only = f"{START} is proved, in ", f"known of {START} is proved, in "
        self.checked("with no library", 0, only, ALL, START, "known")
        self.checked("once more", 0, proved, ALL[2:], START)
        # (an older file in the place of another one)
        source = f"{self.other}/crates/cordyceps_list/src/list.rt"
        text = text_of(source)
        write(source, f"{text}// changed\n")
        os.utime(source, (1, 1))
        self.checked("with a changed library", 0, only, ALL[1:], START, "known")
        self.checked("with a changed library, once more", 0, only, ALL[2:], START, "known")
        write(f"{self.other}/crates/cordyceps_base/src/more.rt", "")
        self.checked("with a changed lowest library", 0, only, ALL, START, "known")
        # (as `rt ci` leaves them)
        for name in ("cordyceps_base", "cordyceps_list"):
            os.remove(f"{self.other}/crates/{name}/out/rlib/sum")
        self.checked("with what rt ci left", 0, only, ALL[2:], START, "known")
        os.remove(f"{self.other}/crates/cordyceps_list/out/rlib/sum")
        write(source, text)
        self.checked("with a library that is older than its source", 0, only, ALL[1:], START, "known")
        shutil.rmtree(f"{self.other}/crates/cordyceps_list/out/rlib")
        self.checked("with a bad library", 1, "cordyceps_list is not proved", ALL[1:2], START, bad="cordyceps_list")
        self.checked("after a bad library", 0, only, ALL[1:], START, "known")
        self.checked("with a bad crate", 1, f"{START} is not proved, in ", ALL[2:], START, bad=START)
        self.checked("with an unknown function", 2, f"{START} has no function other", ALL[2:], START, "other")
        self.checked("with an unknown crate", 2, "there is no crate other", [], "other")
        return self.faults


def faults(checkout, other):
    """What is wrong with tools/prove_crate, as tools/copy_library of a checkout brings it to another repository."""
    found = Trial(checkout, other).run()
    shutil.rmtree(other)
    return found
