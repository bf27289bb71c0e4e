"""What a run of tests or of proofs needs of the machine before it begins: room for temporary files, and a checkout that
can be written.

./test and ./gate run this file with the word 'tests' or 'proofs'. It writes a line that says what is missing, and ends
with status 1 then.
"""

import os
import sys
import tempfile

TOP = os.path.dirname(os.path.dirname(os.path.dirname(os.path.realpath(__file__))))
MEBIBYTE = 1 << 20
# How many MiB have to be free for a run, among the temporary files and in the checkout. The tests in Rust took 221 MB of
# temporary files, and `rt ci` leaves libraries of 3 GB.
ROOM = {"tests": (320, 64), "proofs": (1024, 4096)}


def has_room(folder, size):
    """Can a folder take a file of so many MiB? It takes one for a moment, so a limit of any kind counts."""
    try:
        with tempfile.TemporaryFile(dir=folder) as it:
            os.posix_fallocate(it.fileno(), 0, size * MEBIBYTE)
        return True
    except OSError:
        return False


def lack(kind):
    """What is missing for a run of this kind; nothing, where all is there."""
    temporary = os.environ.get("TMPDIR") or "/tmp"
    of_temporary, of_checkout = ROOM[kind]
    what = f"the folder for temporary files, {temporary},"
    if not os.path.isdir(temporary):
        return f"{what} is not there"
    if not has_room(temporary, of_temporary):
        return f"{what} cannot be written, or has no {of_temporary} MiB free"
    crates = sorted(os.listdir(f"{TOP}/crates"))
    for it in filter(os.path.isdir, (f"{TOP}/crates/{name}{part}" for name in crates for part in ("", "/out"))):
        if not os.access(it, os.W_OK | os.X_OK):
            return f"the folder {os.path.relpath(it, TOP)} of the checkout cannot be written"
    if not has_room(f"{TOP}/crates", of_checkout):
        return f"the folder crates of the checkout cannot be written, or has no {of_checkout} MiB free"
    return ""


def main():
    why = lack(sys.argv[1])
    if why:
        print(why)
        sys.exit(1)


if __name__ == "__main__":
    main()
