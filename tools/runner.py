#!/usr/bin/env python3
"""Runs a command, and has all that it started end with it.

usage: tools/runner.py SECONDS COMMAND..    runs a test for so many seconds at most. The last line is 'N passed, M failed'

A process that imports this adopts what its commands leave behind. So it finds all that they started, in whatever group of processes or
session that is. Told to end by Ctrl-C, SIGTERM or SIGHUP, it ends all of it first.
"""

import contextlib
import ctypes
import os
import re
import select
import signal
import subprocess
import sys
import time
from pathlib import Path

PR_SET_CHILD_SUBREAPER = 36
# For how many seconds processes may go on that are told to end: if this process ends, and if their time is over.
GRACE, GRACE_OF_LATE = 1, 10
# After how many seconds without a line a command is said to go on.
SILENCE = 55
COUNTS = re.compile(r"(\d+) passed, (\d+) failed")


def processors():
    """Returns how many processors there are to use, by the quota of the control group too."""
    count = len(os.sched_getaffinity(0))
    with contextlib.suppress(OSError, ValueError):
        quota, period = map(int, Path("/sys/fs/cgroup/cpu.max").read_text(encoding="ascii").split())
        count = min(count, max(1, quota // period))
    return count


def free_memory():
    """Returns the free memory in bytes, by the limit of the control group too."""
    free = 1024 * int(re.search(r"^MemAvailable: +(\d+) kB$", Path("/proc/meminfo").read_text(encoding="ascii"), re.M)[1])
    with contextlib.suppress(OSError, ValueError):
        most, used = (int(Path(f"/sys/fs/cgroup/memory.{it}").read_text(encoding="ascii")) for it in ("max", "current"))
        free = min(free, most - used)
    return free


def at_a_time(memory):
    """Returns how many commands may run at the same time that take so much memory each: one a processor at most."""
    return max(1, min(processors(), free_memory() // memory))


class Told(BaseException):
    """A signal told this process to end."""

    def __init__(self, number):
        super().__init__(number)
        self.number = number


def told(number, _):
    for it in (signal.SIGHUP, signal.SIGINT, signal.SIGTERM):
        signal.signal(it, signal.SIG_IGN)
    raise Told(number)


def adopt():
    """Has this process adopt what its commands leave behind, and end by `Told` at a signal, unless its caller ignores that signal."""
    ctypes.CDLL(None).prctl(PR_SET_CHILD_SUBREAPER, 1, 0, 0, 0)
    for number in (signal.SIGHUP, signal.SIGINT, signal.SIGTERM):
        if signal.getsignal(number) is not signal.SIG_IGN:
            signal.signal(number, told)


def descendants():
    """Returns all processes that this one has started, and that were started by these, but for those that have ended."""
    children, found = {}, [os.getpid()]
    for name in filter(str.isdigit, os.listdir("/proc")):
        with contextlib.suppress(OSError):
            with open(f"/proc/{name}/stat", "rb") as file:
                state, parent = file.read().rpartition(b") ")[2].split()[:2]
            children.setdefault(int(parent), []).append((int(name), state in b"ZX"))
    for process in found:
        found += [child for child, _ in children.get(process, [])]
    ended = {child for some in children.values() for child, has_ended in some if has_ended}
    return [it for it in found[1:] if it not in ended]


def reap(but=()):
    """Takes note of the ends of adopted processes, so that none stays as a zombie. The others are waited for elsewhere."""
    with contextlib.suppress(ChildProcessError):
        while (found := os.waitid(os.P_ALL, 0, os.WEXITED | os.WNOHANG | os.WNOWAIT)) and found.si_pid not in but:
            os.waitpid(found.si_pid, 0)


def end_all(seconds=GRACE, but=()):
    """Ends all that this process has started: tells it to end, and kills what is left after so many seconds."""
    end, number = time.monotonic() + seconds, signal.SIGTERM
    while left := descendants():
        for it in left:
            with contextlib.suppress(ProcessLookupError):
                os.kill(it, number)
        while descendants() and time.monotonic() < end:
            time.sleep(0.02)
            reap(but)
        number, end = signal.SIGKILL, time.monotonic() + 0.2
    reap(but)


def set_apart():
    """Makes this process the first of a group of its own, which heeds the signals that its caller may have it ignore."""
    os.setpgrp()
    for number in (signal.SIGHUP, signal.SIGINT, signal.SIGQUIT, signal.SIGTERM):
        signal.signal(number, signal.SIG_DFL)


def read_some(pipe, seconds):
    """Returns what is in a pipe, or nothing if nothing comes in so many seconds, or never will."""
    if not select.select([pipe], [], [], seconds)[0]:
        return b""
    more = os.read(pipe.fileno(), 1 << 16)
    if not more:
        time.sleep(seconds)
    return more


def run(words, seconds, hear, **how):
    """Runs a command for so many seconds at most, and gives each line that it prints to `hear`, and None if none came for a while. What it
    leaves behind is ended. Returns its status, or None if its time was over."""
    end, heard, rest = time.monotonic() + seconds, time.monotonic(), b""
    pipes = {"stdin": subprocess.DEVNULL, "stdout": subprocess.PIPE, "stderr": subprocess.STDOUT}
    process = subprocess.Popen(words, preexec_fn=set_apart, **pipes, **how)
    is_over = False
    try:
        while True:
            has_ended = process.poll() is not None
            more = read_some(process.stdout, 0 if has_ended else 0.2)
            if has_ended and not more:
                break
            *lines, rest = (rest + more).split(b"\n")
            for line in lines:
                hear(line.decode(errors="replace"))
            if not is_over and time.monotonic() > end:
                is_over = True
                end_all(GRACE_OF_LATE, [process.pid])
            if lines:
                heard = time.monotonic()
            elif time.monotonic() > heard + SILENCE:
                hear(None)
                heard = time.monotonic()
            reap([process.pid])
    finally:
        end_all(GRACE, [process.pid])
        process.wait()
        process.stdout.close()
    if rest:
        hear(rest.decode(errors="replace"))
    return None if is_over else process.returncode


def run_test(name, words, seconds, hear, **how):
    """Runs a test, whose last line has to be 'N passed, M failed', and gives `hear` each line but that one. Returns these numbers. If the test doesn't
    end in its time, has no such line, or has a status that contradicts it, it has failed, and a line with its name says why."""
    last = []

    def hold_last(line):
        if line is None:
            return hear(None)
        for it in last:
            hear(it)
        last[:] = [line]

    try:
        status = run(words, seconds, hold_last, **how)
    except OSError as error:
        status = f"it can't be run: {error.strerror}"
    found = COUNTS.fullmatch(last[0]) if last else None
    if found and status is not None and (status == 0 or found[2] != "0"):
        return int(found[1]), int(found[2])
    if status is None:
        why = f"it didn't end in {seconds} s"
    elif isinstance(status, str):
        why = status
    elif found:
        why = f"its status is {status}, and its last line tells no failure"
    else:
        why = f"its last line isn't 'N passed, M failed', and its status is {status}"
    for it in [*last, f"{name}: FAILED: {why}"]:
        hear(it)
    return 0, 1


def say(line):
    if line is not None:
        print(line, flush=True)


def main(seconds, *words):
    adopt()
    try:
        passed, failed = run_test(os.path.basename(words[0]), words, int(seconds), say)
    except Told as it:
        return 128 + it.number
    print(f"{passed} passed, {failed} failed")
    return int(failed > 0)


if __name__ == "__main__":
    sys.exit(main(*sys.argv[1:]))
