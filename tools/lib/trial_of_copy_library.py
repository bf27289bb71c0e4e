"""What tools/first_run tries of tools/copy_library: a first copy, an upgrade, what stands in the way of one, and a copy
that is broken off or whose record was tampered with."""

import hashlib
import os
import re
import shutil

from .common import files_in, text_of, write

BASE = "crates/cordyceps_base/src/lib.rt"
START = "crates/cordyceps_start"
GONE = "crates/cordyceps_list/src/gone.rt"
PROGRAMS = ("cordyceps_uses", "cordyceps_shared_uses")
RECORD = "cordyceps.sums"
PROVERS = ("tools/prove_crate", "tools/lib/__init__.py", "tools/lib/proving.py")
SUM = "0" * 64
NAMES_NO_FILE = "cordyceps.sums there has a line that names no file of a crate: "
# Records that no copy has left, and what is said of each.
RECORDS = (
    (b"", "cordyceps.sums there does not begin with the version"),
    (b"\xff\xfe", "cordyceps.sums there is no text in UTF-8"),
    (f"{SUM}  {BASE}\n".encode(), "cordyceps.sums there does not begin with the version"),
    (b"# cordyceps 0.1.0\n../..\n", f"{NAMES_NO_FILE}'../..'"),
    *(
        (f"# cordyceps 0.1.0\n{{sum}}  {it}\n".encode(), NAMES_NO_FILE)
        for it in ("../theirs", "{outside}", "crates/../../theirs", "crates/a/../../../theirs", "crates/cordyceps_base")
    ),
)


def names_in(text):
    """The crates that the lines of a crates.txt are of."""
    return [it.split(":")[0].split()[0] for it in text.splitlines()]


def kept(crate, program, cells):
    """The files of a crate, by their paths there, that are kept with a program: a cell for each of src/, specs/ and
    proofs/ names them."""
    for part, cell in zip(("src", "specs", "proofs"), cells):
        names = {program} | set(re.findall(r"`(\w+)", cell))
        for file in files_in(f"{crate}/{part}"):
            path = os.path.relpath(file, crate)
            if path.split("/")[1].split(".")[0] in names:
                yield path


def faults_of_program(top, program, cells):
    """What a program names that the table of docs/OWN_CRATE.md does not keep with it."""
    crate = next(it for it in PROGRAMS if os.path.exists(f"{top}/crates/{it}/src/{program}.rt"))
    paths, found = [*kept(f"{top}/crates/{crate}", program, cells)], set()
    parts = {re.match(r"\w+/\w+", it)[0] for it in paths if re.match(r"\w+/\w+", it)}
    for path in paths:
        text = text_of(f"{top}/crates/{crate}/{path}")
        found |= {f"src/{it}" for it in re.findall(r"\bcrate::(\w+)::", text)}
        for part, name, inner in re.findall(rf"Rattle\.{crate}\.(specs|proofs)\.(\w+)(?:\.(\w+))?", text):
            found.add(f"src/{inner}" if name in ("declared", "contracts") else f"{part}/{name}")
    return [f"docs/OWN_CRATE.md keeps no {it} with {program}" for it in sorted(found - parts)]


class Trial:
    """Another repository, OTHER, into which a checkout is copied."""

    def __init__(self, checkout, other):
        self.checkout, self.top, self.other, self.faults = checkout, checkout.top, other, []
        self.lines = text_of(f"{self.top}/crates.txt").splitlines()

    def copied(self, status, line, *words):
        """Calls tools/copy_library, which ends so and writes this line."""
        ran = self.checkout.run(command=[f"{self.top}/tools/copy_library", self.other, *words])
        if ran.status != status or ran.err or line not in ran.out.splitlines():
            self.faults.append(f"tools/copy_library {' '.join(words)}: {ran}")

    def refused(self, line, *command):
        """Calls tools/copy_library, which ends with status 2 and a line that begins so."""
        ran = self.checkout.run(command=command or [f"{self.top}/tools/copy_library", self.other])
        if ran.status != 2 or ran.out or not ran.err.startswith(f"copy_library: {line}") or ran.err.count("\n") != 1:
            self.faults.append(f"where {line!r} was to be said: {ran}")

    def same(self, *paths):
        """These files are as in the checkout."""
        texts = [(it, text_of(f"{self.top}/{it}"), text_of(f"{self.other}/{it}")) for it in paths]
        self.faults += [f"{it} differs" for it, here, there in texts if here != there]

    def absent(self, *paths):
        self.faults += [f"{it} is there" for it in paths if os.path.exists(f"{self.other}/{it}")]

    def crates(self, *names):
        found = names_in(text_of(f"{self.other}/crates.txt"))
        if sorted(found) != sorted(names):
            self.faults.append(f"crates.txt has {found}")

    def first(self):
        """A first copy, into a repository with a crate of its own."""
        write(f"{self.other}/crates.txt", "app: cordyceps_list\n")
        write(f"{self.top}/{GONE}", "//! Gone in the next version.\n")
        self.copied(0, "HANDLES: copied", "lists")
        self.same(BASE, f"{START}/src/lib.rt", "HANDLES", ".gitignore", GONE, *PROVERS)
        if not os.access(f"{self.other}/tools/prove_crate", os.X_OK):
            self.faults.append("tools/prove_crate cannot be run there")
        self.crates("cordyceps_base", "cordyceps_list", "cordyceps_start", "app")

    def upgrade(self):
        """An upgrade: here a file has changed, another went, and tools/check has another name, and cordyceps_start was
        renamed there."""
        os.remove(f"{self.top}/{GONE}")
        was = text_of(f"{self.top}/{BASE}")
        write(f"{self.top}/{BASE}", f"{was}// newer\n")
        os.rename(f"{self.other}/{START}", f"{self.other}/crates/mine")
        lines = text_of(f"{self.other}/crates.txt")
        write(f"{self.other}/crates.txt", lines.replace("cordyceps_start:", "mine:"))
        os.rename(f"{self.other}/tools/prove_crate", f"{self.other}/tools/check")
        record = text_of(f"{self.other}/{RECORD}")
        write(f"{self.other}/{RECORD}", record.replace("tools/prove_crate", "tools/check"))
        self.copied(0, "crates/cordyceps_base: files changed 1")
        self.same(BASE, "tools/prove_crate")
        self.absent(GONE, START, "tools/check")
        self.crates("cordyceps_base", "cordyceps_list", "mine", "app")
        self.copied(0, "crates/cordyceps_base: as it was")
        write(f"{self.top}/{BASE}", was)

    def in_the_way(self):
        """What was changed there is lost only where that is wanted, and HANDLES there has to serve."""
        write(f"{self.other}/{BASE}", "//! Theirs.\n")
        self.copied(1, f"{BASE} was changed there; --replace replaces it", "all")
        write(f"{self.other}/HANDLES", "Handles allowed: none.\n")
        self.copied(1, "HANDLES there has to allow Wait, since calls of cordyceps_queue may wait", "all", "--replace")
        self.absent("crates/freelist")
        write(f"{self.other}/HANDLES", "Handles allowed: Wait.\n")
        self.copied(0, "HANDLES: as it was", "all", "--replace")
        self.same(BASE, "crates/freelist/src/lib.rt")
        # (freelist and what cordyceps stands on come before it)
        known = names_in("\n".join(self.lines))
        all_of_them = {*known[: known.index("cordyceps") + 1], "mine", "app"} - {"cordyceps_start"}
        self.crates(*all_of_them)


    def programs(self):
        """A crate of programs is copied when it is asked for, is completed, and is left alone once it was changed. What
        is said to be kept of such a crate with one program is all that it needs."""
        table = text_of(f"{self.top}/docs/OWN_CRATE.md").partition("## Programs to copy")[2].partition("##")[0]
        rows = re.findall(r"^`(\w+)` \|(.*)\|(.*)\|(.*)$", table, re.M)
        self.faults += [it for name, *cells in rows for it in faults_of_program(self.top, name, cells)]
        if not rows:
            self.faults.append("docs/OWN_CRATE.md has no table of programs")
        disk = "crates/cordyceps_disk"
        self.copied(0, "crates.txt: lines written 1", "disk")
        self.same(f"{disk}/src/lib.rt", f"{disk}/src/laws.rt")
        os.remove(f"{self.other}/{disk}/src/laws.rt")
        self.copied(0, f"{disk}: files new 1", "disk")
        write(f"{self.other}/{disk}/src/lib.rt", "//! Theirs.\n")
        os.remove(f"{self.other}/{disk}/src/laws.rt")
        self.copied(0, "crates.txt: as it was", "disk")
        self.copied(0, "crates.txt: as it was")
        self.absent(f"{disk}/src/laws.rt")
        if text_of(f"{self.other}/{disk}/src/lib.rt") != "//! Theirs.\n":
            self.faults.append(f"{disk} was changed there, and is lost")

    def tampered(self):
        """A record that names what is no file of a crate, and a link that leads out, are refused: nothing goes."""
        outside = f"{os.path.dirname(self.other)}/theirs"
        write(outside, "Theirs.\n")
        sum = hashlib.sha256(b"Theirs.\n").hexdigest()
        record = text_of(f"{self.other}/{RECORD}")
        for text, said in RECORDS:
            text = text.replace(b"{sum}", sum.encode()).replace(b"{outside}", outside.encode())
            with open(f"{self.other}/{RECORD}", "wb") as it:
                it.write(text)
            self.refused(said)
        write(f"{self.other}/{RECORD}", record)
        folder = f"{self.other}/crates/cordyceps_list/src"
        os.rename(folder, f"{outside}.src")
        os.symlink(f"{outside}.src", folder)
        os.remove(f"{outside}.src/lib.rt")
        self.refused("crates/cordyceps_list/src/")
        if not os.path.exists(outside) or os.path.exists(f"{outside}.src/lib.rt"):
            self.faults.append("it changed what lies outside")
        os.remove(outside)
        shutil.rmtree(f"{outside}.src")
        self.refused("DEST is empty", f"{self.top}/tools/copy_library", "", "lists")

    def broken_off(self):
        """A first copy that cannot write, or was broken off, is completed by the next call."""
        shutil.rmtree(self.other)
        limited = 'ulimit -f 16 && exec "$0" "$@"'
        self.refused("/", "bash", "-c", limited, f"{self.top}/tools/copy_library", self.other, "lists")
        parts = files_in(self.other)
        if not parts or any(it.endswith(".new") for it in parts) or os.path.exists(f"{self.other}/{RECORD}"):
            self.faults.append(f"where it could not write, it left {parts}")
        self.copied(0, "crates.txt: lines written 3", "lists")
        # (as it is left between cordyceps_start and the record)
        os.remove(f"{self.other}/{RECORD}")
        write(f"{self.other}/crates.txt", "app: cordyceps_list\n")
        self.copied(0, "crates.txt: lines written 3", "lists")
        self.same(BASE, f"{START}/src/lib.rt", "HANDLES", ".gitignore", *PROVERS)
        self.crates("cordyceps_base", "cordyceps_list", "cordyceps_start", "app")


def faults(checkout, other):
    """What is wrong with tools/copy_library of a checkout, which is left as it was."""
    trial = Trial(checkout, other)
    trial.first()
    trial.upgrade()
    trial.in_the_way()
    trial.programs()
    trial.tampered()
    trial.broken_off()
    shutil.rmtree(other)
    return trial.faults
