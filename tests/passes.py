"""Wrong changes that the compiler has to refuse, and how they are tried. Most of them drop a value that only one call may take, such
as a post, a ticket or a desk.

The pass that `rt` makes over the sources before any proof must refuse each by its error, and by no other."""

import os
import signal
import subprocess
import tempfile
import time
from pathlib import Path

from editing import apply, edited
from proofs import copy_with_libraries

# The first edit of a crate may wait until those crates below are built that no library of these sources is there for. If the pass accepts
# an edit, `rt` goes on and proves them, until the time is over.
SECONDS = 1800
# The errors of a pass come within so many seconds after the first one.
AFTER = 5


def errors_of(crate):
    """Returns the errors of the pass over the sources. What `rt` does after them is broken off."""
    output = crate.parent.parent / "output"
    command = ["rt", "check", "--only", "", "--jobs", "1"]
    with open(output, "w", encoding="utf-8") as file:
        process = subprocess.Popen(command, cwd=crate, stdout=file, stderr=subprocess.STDOUT, start_new_session=True)
    end, errors = time.monotonic() + SECONDS, []
    while process.poll() is None and time.monotonic() < end:
        time.sleep(1)
        if not errors and (errors := errors_in(output)):
            end = min(end, time.monotonic() + AFTER)
    if process.poll() is None:
        os.killpg(process.pid, signal.SIGKILL)
        process.wait()
    return errors_in(output)


def errors_in(output):
    """Returns the lines of the file so far that are errors."""
    return [it for it in output.read_text(encoding="utf-8").splitlines() if "error[" in it]


def fault_of(edit, crate):
    """Returns why the edit isn't refused in the crate's copy as it must be. Puts the copy back."""
    texts, fault = edited(edit, crate)
    if fault:
        return fault
    kept = apply(texts, crate)
    errors = errors_of(crate)
    apply(kept, crate)
    if not errors:
        return f"no error came within {SECONDS} seconds"
    others = [it for it in errors if edit.refusal() not in it]
    return f"it is refused by another error: {others[0]}" if others else None


def try_edits(edits):
    """Tries edits of one crate one after the other, in one copy of the sources. Yields each with its fault and its seconds."""
    with tempfile.TemporaryDirectory() as work:
        copy_with_libraries(Path(work), edits[0].crate.name)
        for edit in edits:
            begun = time.monotonic()
            fault = fault_of(edit, Path(work) / "crates" / edit.crate.name)
            yield edit, fault, time.monotonic() - begun
