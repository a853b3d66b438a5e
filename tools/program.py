"""The program ftrighub: of which crates it is made, what its sources are, and where it is installed."""

import hashlib
import os
import re
import time
from pathlib import Path

ROOT = Path(__file__).resolve().parent.parent
MAIN = "hub_cli"
PROGRAM = ROOT / "out" / "ftrighub"
PARTS = ("src", "specs", "proofs")


def rows():
    """Returns the lines of crates.txt, by the crate that each line names."""
    lines = [line.partition("#")[0].strip() for line in (ROOT / "crates.txt").read_text(encoding="utf-8").splitlines()]
    return {re.match(r"[^\s:]*", line)[0]: line for line in lines if line}


def uses(names):
    """Returns, by crate, those of these crates that its line of crates.txt names."""
    words = {name: re.split(r"[\s,]+", row.partition(":")[2]) for name, row in rows().items() if name in names}
    return {name: [it for it in found if it in names] for name, found in words.items()}


def with_below(name, its_uses):
    """Returns the crate and all below it, each after those that it uses."""
    found = []

    def add(it):
        if it in its_uses and it not in found:
            for below in its_uses[it]:
                add(below)
            found.append(it)

    add(name)
    return found


def crates():
    """Returns the names of the crates that the program is made from, each after those that it uses."""
    return with_below(MAIN, uses(rows()))


def sources(names):
    """Returns the files that decide whether the program is current, by their paths in the repository. Those of tests don't count."""
    found = ["crates.txt"]
    for folder in (ROOT / "crates" / name / part for name in names for part in PARTS):
        for at, folders, files in os.walk(folder):
            folders[:] = [it for it in folders if it != "tests"]
            found += [os.path.relpath(f"{at}/{it}", ROOT) for it in files if it != "tests.rt"]
    return sorted(found, key=os.fsencode)


class Mark:
    """When a proof began, and what the sources were then."""

    def __init__(self, file):
        self.crates = crates()
        # The file system's own time, less a nanosecond: every source that is written from now on is newer.
        os.utime(file)
        self.time = os.stat(file).st_mtime_ns - 1
        self.sum = self.sum_now()

    def sum_now(self):
        """Returns the sum of the sources, as `sha256sum` makes it of what it prints of each of them: the wrapper asks it."""
        lines = [f"{hashlib.sha256((ROOT / it).read_bytes()).hexdigest()}  {it}\n" for it in sources(self.crates)]
        return hashlib.sha256(os.fsencode("".join(lines))).hexdigest()


def replace_file(file, data, mode, made_at):
    """Gives the file this text in one step, so that nobody sees a part of it."""
    new = Path(f"{file}.new.{os.getpid()}")
    with open(new, "wb") as it:
        it.write(data)
        os.fchmod(it.fileno(), mode)
        os.fsync(it.fileno())
    os.utime(new, ns=(made_at, made_at))
    new.rename(file)


def install(file, mark, cpu=None):
    """Installs the program that was built of the sources as they were at the mark. The list of its crates comes first, since the wrapper reads it
    beside the program."""
    PROGRAM.parent.mkdir(exist_ok=True)
    lines = [f"crates='{' '.join(mark.crates)}'", f"sum={mark.sum}", *([f"cpu={cpu}"] if cpu else [])]
    replace_file(f"{PROGRAM}.crates", "".join(f"{it}\n" for it in lines).encode(), 0o644, mark.time)
    replace_file(PROGRAM, Path(file).read_bytes(), 0o755, mark.time)


def duration(seconds):
    """Returns so many seconds as text."""
    minutes, seconds = divmod(int(seconds), 60)
    return f"{minutes} min {seconds} s" if minutes else f"{seconds} s"


def since(begun):
    return duration(time.monotonic() - begun)
