"""How the tests of edits run a command: in a group of processes of its own, which ends with the command, and at the latest with a time."""

import contextlib
import os
import signal
import subprocess
import threading
import time

# For how many seconds a group of processes may end by itself once it is told to.
GRACE = 5
# The commands that run.
RUNNING, GUARD = set(), threading.Lock()


class Untried(Exception):
    """An edit can't be tried here, or not in the time that is left."""


def end_group(process):
    """Ends what is left of a command's group of processes."""
    for number, seconds in ((signal.SIGTERM, GRACE), (signal.SIGKILL, None)):
        with contextlib.suppress(ProcessLookupError):
            os.killpg(process.pid, number)
        with contextlib.suppress(subprocess.TimeoutExpired):
            process.wait(seconds)


def end_all():
    """Ends all commands that run, for a process that is about to end."""
    for it in list(RUNNING):
        with contextlib.suppress(ProcessLookupError):
            os.killpg(it.pid, signal.SIGKILL)


def run(words, output, end, until=lambda said: False, **how):
    """Runs a command, whose output goes to a file, until it has ended, until this time, or until what it printed is enough.
    Returns its status, or None if it was ended, and what it printed."""
    with open(output, "wb") as file:
        process = subprocess.Popen(words, stdin=subprocess.DEVNULL, stdout=file, stderr=file, start_new_session=True, **how)
    with GUARD:
        RUNNING.add(process)
    try:
        while process.poll() is None and time.monotonic() < end and not until(printed(output)):
            time.sleep(0.2)
        status = process.returncode
    finally:
        end_group(process)
        with GUARD:
            RUNNING.discard(process)
    return status, printed(output)


def printed(output):
    """Returns what is in the file so far."""
    return output.read_text(encoding="utf-8", errors="replace")
