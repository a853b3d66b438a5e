"""Processes of a test, each of which does one thing and hands its result back. They end with the test, however it ends."""

import ctypes
import os
import pickle
import signal
import sys
import time
import traceback

LIBC = ctypes.CDLL(None)
PR_SET_PDEATHSIG = 1


def end_with(parent):
    """Has this process be killed when its parent ends. A signal ends it as if it weren't a copy of the test."""
    for number in (signal.SIGTERM, signal.SIGHUP):
        signal.signal(number, signal.SIG_DFL)
    LIBC.prctl(PR_SET_PDEATHSIG, signal.SIGKILL)
    if os.getppid() != parent:
        os._exit(1)


def started(work):
    """Starts a process that does the work and ends, and returns its number."""
    parent = os.getpid()
    sys.stdout.flush()
    child = os.fork()
    if child != 0:
        return child
    status = 1
    try:
        end_with(parent)
        work()
        status = 0
    except BaseException:  # (whatever it is, this copy of the test goes no further)
        traceback.print_exc()
    finally:
        os._exit(status)


class Worker:
    """A process that does the work, and leaves what it returns in a file."""

    def __init__(self, file, work):
        self.file = file
        self.process = started(lambda: self.leave(work()))

    def leave(self, result):
        with open(self.file, "wb") as file:
            pickle.dump(result, file)

    def result(self, deadline):
        """What the work returned, or None if it failed, or didn't end in time."""
        while (ended := os.waitpid(self.process, os.WNOHANG)) == (0, 0) and time.monotonic() < deadline:
            time.sleep(0.005)
        if ended == (0, 0):
            os.kill(self.process, signal.SIGKILL)
            os.waitpid(self.process, 0)
            return None
        if ended[1] != 0:
            return None
        with open(self.file, "rb") as file:
            result = pickle.load(file)
        os.unlink(self.file)
        return result
