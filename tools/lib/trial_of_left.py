"""What tools/first_run tries of the program that `rt ci` leaves in a checkout: ./replay takes it where it is of the
files as they are."""

import os
import shutil

from .common import text_of, write

APP = "crates/cordyceps_replay"
SOURCE = "crates/replay_sessions/src/lib.rt"
PROOFS = "crates/replay_lines/proofs"
SUM = f"{APP}/out/cordyceps_replay.sum"
MORE = "crates/replay_lines/src/more.rt"


class Trial:
    """A checkout in which a stand-in for `rt ci` runs, and what is wrong with the runs of ./replay there."""

    def __init__(self, copy, expect, how, makes):
        self.copy, self.expect, self.how, self.makes, self.faults = copy, expect, how, makes, []

    def path(self, name):
        return f"{self.copy.top}/{name}"

    def says(self, when, program, *lines, words=("list",)):
        """Runs ./replay, which is answered by this program behind these lines of standard error."""
        ran = self.copy.run(*words, **self.how)
        out = f"{program} {words[-1]}\n" if program else ""
        self.faults += [f"{when}: {it}" for it in self.expect(ran, 0, out, *lines)]

    def prove(self, change=None):
        """Runs the stand-in, and changes the checkout while it runs."""
        # (the stand-in leaves a temporary file)
        environment = {**self.how["environment"], "TMPDIR": os.path.dirname(self.copy.top)}
        ran = self.copy.start_and_wait("ci", command=["rt", "ci"], environment=environment)
        if change:
            change()
        ran.communicate()
        os.remove(self.copy.log)

    def is_not_taken(self, when, change, undo, while_it_runs=False):
        """After such a change the unproved build answers."""
        self.prove(change if while_it_runs else None)
        if not while_it_runs:
            change()
        self.says(when, "unproved", *self.makes)
        undo()

    def run(self):
        self.prove()
        self.says("what rt ci left", "proved")
        self.faults += [] if os.path.exists(self.path(SUM)) else ["it notes no sum of what rt ci left"]
        self.says("what rt ci left, once more", "proved")
        self.says("what rt ci left, with --prove", "", "replay: the program is proved and built", words=("--prove",))
        self.changes()
        self.prove()
        self.says("all as it was", "proved")
        return self.faults

    def write_in_place(self):
        """Changes a source and dates it back, such that neither its date nor that of its folder shows it."""
        with open(self.path(SOURCE), "a", encoding="utf-8") as it:
            it.write("// changed\n")
        os.utime(self.path(SOURCE), (1, 1))

    def changes(self):
        """What changes of the checkout, behind which ./replay may not take what `rt ci` left."""
        text, aside = text_of(self.path(SOURCE)), self.path("proofs")
        back = lambda: write(self.path(SOURCE), text)
        self.is_not_taken("behind a source of another date", self.write_in_place, back)
        self.is_not_taken("behind a source that was changed meanwhile", self.write_in_place, back, while_it_runs=True)
        more = lambda: os.remove(self.path(MORE))
        self.is_not_taken("behind a source more", lambda: write(self.path(MORE), ""), more)
        move = lambda: shutil.move(self.path(PROOFS), aside)
        self.is_not_taken("without proofs", move, lambda: shutil.move(aside, self.path(PROOFS)))
        wrote = lambda: write(self.path(f"{APP}/out/stdout"), "")
        self.is_not_taken("where it wrote something else", wrote, lambda: None)


def faults(copy, expect, how, makes):
    """What is wrong with what ./replay takes of what `rt ci` left. HOW makes an environment with stand-ins, and MAKES
    are the lines behind which an unproved build answers at its first use."""
    return Trial(copy, expect, how, makes).run() + copy.left_over()
