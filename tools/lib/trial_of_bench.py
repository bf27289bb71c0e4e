"""What tools/first_run tries of bench/lay_out: a first repository, one that is brought up to date, and what was changed
there."""

import os
import shutil

from .common import text_of, write

SOURCE = "crates/cordyceps_speed/src/main.rt"
NEW = "crates/cordyceps_speed_rows/proofs/New.antt"
CRATES = ("cordyceps_speed", "cordyceps_speed_rows", "cordyceps_speed_threads")
INSIDE = "is in this repository, where rt ci would find crates that it does not prove"


class Trial:
    """A checkout, whose benchmarks are laid out in the folder TOP."""

    def __init__(self, checkout, top):
        self.checkout, self.top, self.faults = checkout, top, []
        self.source, self.there = f"{checkout.top}/bench/{SOURCE}.in", f"{top}/{SOURCE}"

    def laid_out(self, status, out, err, *words, at=None):
        """Calls bench/lay_out, which ends so and writes this."""
        command = [f"{self.checkout.top}/bench/lay_out", "--at", at or self.top, *words]
        ran = self.checkout.run(command=command)
        if (ran.status, ran.out, ran.err) != (status, out, err):
            self.faults.append(f"bench/lay_out {' '.join(words)}: {ran}")

    def same(self):
        if text_of(self.source) != text_of(self.there):
            self.faults.append(f"{SOURCE} differs")

    def first(self):
        """The crates and the library are there, and so are their lines."""
        self.laid_out(0, "", "")
        self.same()
        names = [it.split(":")[0].split()[0] for it in text_of(f"{self.top}/crates.txt").splitlines()]
        lost = [it for it in (*CRATES, "cordyceps_list", "freelist") if names.count(it) != 1]
        lost += [it for it in names if not os.path.isdir(f"{self.top}/crates/{it}/src")]
        self.faults += [f"{it} is not laid out" for it in lost]

    def up_to_date(self):
        """What was changed, came or went here is so there."""
        was = text_of(self.source)
        write(self.source, f"{was}// newer\n")
        write(f"{self.checkout.top}/bench/{NEW}.in", "-- new\n")
        self.laid_out(0, "", "")
        self.same()
        if not os.path.isfile(f"{self.top}/{NEW}"):
            self.faults.append(f"{NEW} did not come")
        os.remove(f"{self.checkout.top}/bench/{NEW}.in")
        write(self.source, was)
        self.laid_out(0, "", "")
        self.same()
        if os.path.exists(f"{self.top}/{NEW}"):
            self.faults.append(f"{NEW} did not go")

    def changed_there(self):
        """What was changed there is not lost, and comes back."""
        was = text_of(self.source)
        write(self.there, f"{was}// theirs\n")
        said = f"lay_out: {self.there} was changed there; bench/lay_out --back brings it back\n"
        self.laid_out(2, "", said)
        self.laid_out(0, f"bench/{SOURCE}.in\n", "", "--back")
        self.same()
        if text_of(self.source) == was:
            self.faults.append(f"{SOURCE} did not come back")
        self.laid_out(0, "", "")
        write(self.source, was)
        self.laid_out(0, "", "")

    def refused(self):
        """Nothing is laid out in the checkout itself, and nothing comes back from where nothing is."""
        inside, empty = f"{self.checkout.top}/bench/out", f"{self.top}/empty"
        self.laid_out(2, "", f"lay_out: {inside} {INSIDE}\n", at=inside)
        self.laid_out(2, "", f"lay_out: nothing is laid out in {empty}\n", "--back", at=empty)


def faults(checkout, top):
    """What is wrong with bench/lay_out of a checkout, which is left as it was."""
    trial = Trial(checkout, top)
    trial.first()
    trial.up_to_date()
    trial.changed_there()
    trial.refused()
    shutil.rmtree(top)
    return trial.faults
