"""What tools/test_cache tries of crates/judged.tsv: a crate stands by its line until what it was judged by changes, a
line that is false is found by the sample, and the judge alone writes one."""

import os
import shutil
import subprocess

from . import common, judged

# A sample that draws nothing of one edit, and one that draws all.
NONE, ALL = ("--lines", "--sample", "1000000007"), ("--lines", "--sample", "1")


def crate_of(top, name):
    """A crate of a repository."""
    return next(it for it in common.rtlib().crates_below(top) if it.name == name)


def commit(top):
    """Makes the folder a git repository with one commit."""
    who = ["-c", "user.name=trial", "-c", "user.email=trial@localhost"]
    for words in (["init", "-q"], [*who, "commit", "-q", "--allow-empty", "-m", "trial"]):
        subprocess.run(["git", *words], cwd=top, check=True, stdout=subprocess.DEVNULL, stderr=subprocess.DEVNULL)


def differs(room, words, wanted):
    """What differs where a run is to end with a status and to say this."""
    status, said = room.run("wrong_bodies", *words)
    missing = [it for it in wanted[1:] if it not in said]
    return [f"{words}: it ended with status {status}, and said {said}"] if status != wanted[0] or missing else []


def forge(room):
    """Writes a line for a crate whose edit no judge refused."""
    line = judged.Line(1, judged.sum_of(crate_of(room.top, "high")), "2026-01-31")
    common.write(f"{room.top}/crates/judged.tsv", judged.written({"high": line}))


def faults_of_false(room):
    """What differs where a crate with a body that is not refused has a forged line."""
    commit(room.top)
    forge(room)
    found = differs(room, NONE, (0, "1 stand by their lines", "\n0 passed, 0 failed\n"))
    found += differs(room, ALL, (1, "NOT REFUSED", "0 stand by their lines", "\n0 passed, 1 failed\n"))
    room.change("crates/low/src/lib.rt", "/// Returns twice the number.\npub", "/// Doubles.\npub")
    found += differs(room, NONE, (0, "1 stand by their lines"))
    room.change("crates/low/src/lib.rt", "(result < 511)", "(result < 512)")
    found += differs(room, NONE, (1, "NOT REFUSED", "0 stand by their lines"))
    return found + differs(room, ["--write-lines"], (1, "high gets no line"))


def faults_of_true(room):
    """What differs where the judge writes the line of a crate whose body is refused, and where that is read."""
    found = differs(room, ["--write-lines"], (0, "the line of high is written: 1 edits", "\n1 passed, 0 failed\n"))
    found += differs(room, NONE, (0, "1 stand by their lines", "\n0 passed, 0 failed\n"))
    other = f"{room.top}/other/place"
    shutil.copytree(f"{room.top}/crates", f"{other}/crates", ignore=shutil.ignore_patterns("out"))
    shutil.copy(f"{room.top}/crates.txt", other)
    line = judged.read(common.text_of(f"{room.top}/crates/judged.tsv"))["high"]
    if judged.sum_of(crate_of(other, "high")) != line.sum:
        found.append("the sum differs in another folder without what is built")
    shutil.rmtree(f"{room.top}/other")
    os.rename(f"{room.top}/.git", f"{room.top}/no-git")
    os.mkdir(f"{room.top}/.git")
    return found + differs(room, NONE, (0, "all, since no commit draws", "\n1 passed, 0 failed\n"))
