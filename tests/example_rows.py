"""The rows of examples, crates/hub_rows/data/NAME.row. In each, the lines of an input begin with `> `, and the reply to each is below it.
A line that begins with `>- ` is one of the input too, without an LF at its end."""

from pathlib import Path
from typing import NamedTuple

FOLDER = Path(__file__).resolve().parent.parent / "crates" / "hub_rows" / "data"


class Row(NamedTuple):
    """An input, and the replies to it."""

    name: str
    given: bytes
    replies: bytes


def read_row(path):
    """Returns the row of a file."""
    given, replies = [], []
    with path.open("rb") as lines:
        for line in lines:
            if line.startswith(b"> "):
                given.append(line.removeprefix(b"> "))
            elif line.startswith(b">- "):
                given.append(line.removeprefix(b">- ").removesuffix(b"\n"))
            else:
                replies.append(line)
    return Row(path.stem, b"".join(given), b"".join(replies))


def example_rows():
    """Returns the rows, by their names."""
    return [read_row(it) for it in sorted(FOLDER.glob("*.row"))]
