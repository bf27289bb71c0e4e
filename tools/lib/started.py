"""What a script starts from its threads, and how all of that ends where the script is broken off."""

import contextlib
import ctypes
import os
import signal
import subprocess
import sys
import threading
import time

from . import common
from .common import text_of

SIGNALS = (signal.SIGHUP, signal.SIGINT, signal.SIGTERM)
# How many seconds what was started has to end by itself.
GRACE = 0.5
# By this the system gives a process whose parent has ended to this script (PR_SET_CHILD_SUBREAPER).
TAKE_ORPHANS = 36
# Held while a process is started, so that none starts once the script is broken off. The signal may come in between.
STARTING = threading.RLock()


class BrokenOff(Exception):
    """Ends a thread that wants to start something when the script is broken off."""


class State:
    is_broken_off = False


def start(words, **how):
    """Starts a process that a signal to the script's group does not reach: it ends with the script."""
    with STARTING:
        if State.is_broken_off:
            raise BrokenOff
        return subprocess.Popen(words, start_new_session=True, **how)


def run(words, **how):
    """Runs a command without input, and answers its status and all that it wrote."""
    how = {"stdin": subprocess.DEVNULL, "stdout": subprocess.PIPE, "stderr": subprocess.STDOUT, **how}
    with start(words, text=True, errors="replace", **how) as it:
        out, err = it.communicate()
    if State.is_broken_off:
        raise BrokenOff
    return subprocess.CompletedProcess(words, it.returncode, out, err)


def runs(pid):
    """Is this process there, and has it not ended yet?"""
    with contextlib.suppress(OSError):
        return text_of(f"/proc/{pid}/stat").rpartition(")")[2].split()[0] not in "XZ"
    return False


def below(pid):
    """The processes that run below a process."""
    found = [str(pid)]
    for each in found:
        with contextlib.suppress(OSError):
            found += [it for it in common.children_of(each) if it not in found]
    return [int(it) for it in found[1:] if runs(it)]


def end_all():
    """Ends all processes below this one: those that have not ended by themselves are killed."""
    number, until = signal.SIGTERM, time.monotonic() + GRACE
    while found := below(os.getpid()):
        for it in found:
            with contextlib.suppress(ProcessLookupError):
                os.kill(it, number)
        # (only once by itself: some take a second signal for another wish)
        number = signal.SIGKILL if time.monotonic() > until else 0
        time.sleep(0.02)


def break_off(number, _):
    """Ends the script with all that it has started. What it wrote for a while is removed on the way out."""
    for it in SIGNALS:
        signal.signal(it, signal.SIG_IGN)
    with STARTING:
        State.is_broken_off = True
    end_all()
    sys.exit(128 + number)


def end_with_script():
    """From here on, all that was started ends where a signal ends the script."""
    ctypes.CDLL(None).prctl(TAKE_ORPHANS, 1, 0, 0, 0)
    for it in SIGNALS:
        signal.signal(it, break_off)
