"""When each edit was last refused: tests/edits-refused.txt. tests/edits --try writes it."""

import functools
import re
import subprocess

from editing import ROOT, TEST

FILE = ROOT / "tests" / "edits-refused.txt"
# What was seen first of an edit that only a test refuses: the prover proves it.
PROVED = "proved, "
HEAD = """When edits were last refused: at which commit (a + says that the sources had changes since), by which toolchain, and the mark
of the edit's text. 'proved' says that the prover first proved the edit, which then a test refused. `tests/edits --try` writes this page.
An edit without a line hasn't been tried since edits.txt has it.

"""
LINE = re.compile(r"(\w+/\w+): (.+)")


@functools.cache
def records():
    """Returns what is on record, by the edits' paths."""
    return dict(LINE.findall(FILE.read_text(encoding="utf-8").partition("\n\n")[2])) if FILE.is_file() else {}


def seen(edit):
    """Returns what a record ends with: what was seen before the edit was refused, and its mark."""
    return f"{PROVED if edit.kind == TEST else ''}{edit.mark()}"


def is_current(edit):
    """Whether it is on record that the edit was refused as it is, and before that what has to be seen."""
    return records().get(edit.path, "").endswith(f", {seen(edit)}")


def last(edit):
    """Returns when the edit was last refused, in words."""
    when, _, mark = records().get(edit.path, "").rpartition(", ")
    if not when:
        return "not tried since edits.txt has it"
    if mark != edit.mark():
        return f"changed since it was refused at {when}"
    return f"refused at {when}" if is_current(edit) else f"refused at {when}, but nobody saw that the prover proves it"


def said(*words):
    """Returns what a command prints."""
    return subprocess.run(words, cwd=ROOT, capture_output=True, text=True, check=True).stdout.strip()


def commit_of(name):
    """Returns the sum of the commit that has this name, or None if there is none, as outside a repository."""
    try:
        return said("git", "rev-parse", "--verify", "--quiet", f"{name}^{{commit}}")
    except (OSError, subprocess.CalledProcessError):
        return None


def now():
    """Returns the commit and the toolchain, as they are put on record."""
    changes = said("git", "status", "--porcelain", "--", "crates", "crates.txt", "tests", ":!tests/edits-refused.txt")
    return f"{said('git', 'rev-parse', '--short=10', 'HEAD')}{'+' if changes else ''}, {said('rt', 'version')}"


def put(edit, refused, when):
    """Puts on record that the edit was refused. If it wasn't, its record goes."""
    kept = records()
    records.cache_clear()
    kept.pop(edit.path, None)
    if refused:
        kept[edit.path] = f"{when}, {seen(edit)}"
    FILE.write_text(HEAD + "".join(f"{path}: {it}\n" for path, it in sorted(kept.items())), encoding="utf-8")
