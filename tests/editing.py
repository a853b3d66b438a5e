"""What the tests of edits share: the form of crates/*/edits.txt, how an edit is applied, and a copy of the sources.

docs/CONTRIBUTING.md shows the form. A block is some lines without an empty one between them. A fault in a block is said by its
first line.
"""

import hashlib
import re
import sys
from dataclasses import dataclass, field
from pathlib import Path

ROOT = Path(__file__).resolve().parent.parent
sys.path.insert(0, str(ROOT / "tools"))
# The family of edits.txt whose edits the gate tries each time.
MAIN = "Main promises"
HOLE = "EFFECT"
ARGUMENT = "HERE"
# What refuses an edit: a clause of a function's contract, a test of a crate or a line that a script of tests/ prints, or an error of
# the compiler.
CLAUSE, TEST, COMPILER = "clause", "test", "compiler"
REFUSED_BY = {
    CLAUSE: re.compile(r"([\w:]+), (\w+(?: \w+)?)"),
    TEST: re.compile(r"([\w/-]+), (.+)"),
    COMPILER: re.compile(r"(error)\[([\w-]+)\]"),
}


class Unread(Exception):
    """A block isn't in the form."""


@dataclass
class Edit:
    """A wrong change of a crate, and what has to refuse it: a kind, and two names of this kind."""

    crate: Path
    name: str
    says: str = ""
    pairs: list = field(default_factory=list)
    kind: str = ""
    refused_by: tuple = ()
    is_main: bool = False  # whether the gate tries it each time

    @property
    def path(self):
        return f"{self.crate.name}/{self.name}"

    def mark(self):
        """Returns some digits that change if the edit does."""
        return hashlib.sha256(repr((self.pairs, self.kind, self.refused_by)).encode()).hexdigest()[:8]

    def refusal(self):
        """Returns what has to refuse it, in the words of edits.txt."""
        first, second = self.refused_by
        return f"{first}[{second}]" if self.kind == COMPILER else f"{first}, {second}"


@dataclass
class Effect:
    """Something that a call could do besides, in the words of a program. ARGUMENT is where each place has its own words."""

    says: str
    text: str
    pairs: list = field(default_factory=list)
    planted: int = 0


def field_of(line):
    """Returns the field of a line, and its text."""
    for mark in ("- ", "+ "):
        if line.startswith(mark):
            return mark[0], line[len(mark) :]
    if line == "+":
        return "+", ""
    name, colon, text = line.partition(": ")
    if not colon:
        raise Unread(f"it has no field: {line}")
    return name, text


def fields_of(lines):
    """Returns the fields of the lines. A '+' after another one goes on with its text, after a blank."""
    fields = []
    for line in lines:
        name, text = field_of(line)
        if name == "+" and fields and fields[-1][0] == "+":
            fields[-1] = ("+", f"{fields[-1][1]} {text}")
        else:
            fields.append((name, text))
    return fields


def refused_by(kind, text):
    """Returns the two names in the text of a clause, a test or an error."""
    read = REFUSED_BY[kind].fullmatch(text)
    if not read:
        raise Unread(f"what refuses it can't be read: {kind}: {text}")
    return read.groups()


def pairs_of(fields):
    """Takes the fields that say what is changed off the others. Returns the files with their old and new texts."""
    pairs, path, old = [], None, None
    for name, text in fields:
        if name == "file":
            path = text
        elif name == "-" and path and old is None:
            old = text
        elif name == "+" and old is not None:
            pairs.append((path, old, text))
            old = None
        elif name in ("-", "+"):
            raise Unread("a '-' belongs to the file above it, and a '+' to the '-' above it")
    if old is not None or not pairs:
        raise Unread("it has no '-' and '+', or a '-' without a '+'")
    return pairs


def read_edit(crate, name, says, fields):
    """Returns the edit of a block."""
    by = [it for it in fields if it[0] in REFUSED_BY]
    if len(by) != 1 or any(it[0] not in (*REFUSED_BY, "file", "-", "+") for it in fields):
        raise Unread("it has to have just one clause:, test: or compiler:, and beside it file:, '-' and '+'")
    return Edit(crate, name, says, pairs_of(fields), by[0][0], refused_by(*by[0]))


def read_effect(says, fields):
    """Returns the effect of a block. Its first '+' is what is planted. Further changes, if it needs any, are made wherever it is."""
    if fields[0][0] != "+" or any(it[0] not in ("file", "-", "+") for it in fields):
        raise Unread("an effect has a sentence and a '+', and behind them file:, '-' and '+' if it needs more")
    return Effect(says, fields[0][1], pairs_of(fields[1:]) if fields[1:] else [])


def plant(effects, word, place):
    """Returns the edit that puts an effect at a place. The word is its name, with the place's own words in parentheses."""
    read = re.fullmatch(r"(\w+)\((.*)\)", word)
    if not read or read[1] not in effects:
        raise Unread(f"no effect above it is {word}")
    effect = effects[read[1]]
    effect.planted += 1
    text = effect.text.replace(ARGUMENT, read[2])
    pairs = [(path, old, new.replace(HOLE, text)) for path, old, new in place.pairs]
    return Edit(place.crate, f"{place.name}_{read[1]}", f"{place.says} {effect.says}", [*pairs, *effect.pairs], place.kind, place.refused_by)


def planted(effects, crate, name, says, fields):
    """Returns the edits that a place makes: one for each effect that its plant: lines name."""
    pairs, edits, wanted = pairs_of(fields), [], []
    if sum(new.count(HOLE) for _, _, new in pairs) != 1:
        raise Unread(f"its '+' lines have to have {HOLE} once")
    for key, text in (it for it in fields if it[0] not in ("file", "-", "+")):
        if key == "plant" and not wanted:
            wanted = text.split(", ")
        elif key in REFUSED_BY and wanted:
            for word in wanted:
                edits.append(plant(effects, word, Edit(crate, name, says, pairs, key, refused_by(key, text))))
            wanted = []
        else:
            raise Unread(f"after a plant: comes what refuses it: {key}")
    if wanted or not edits:
        raise Unread("after a plant: comes what refuses it")
    return edits


class File:
    """The edits of a crate's edits.txt, by their names, and what is wrong with its blocks."""

    def __init__(self, crate):
        self.crate, self.edits, self.effects, self.families, self.faults = crate, {}, {}, [], []
        text = crate / "edits.txt"
        blocks = re.split(r"\n\n+", text.read_text(encoding="utf-8").strip()) if text.is_file() else []
        for block in blocks[1:]:  # (the first one is the title)
            lines = block.split("\n")
            try:
                self.read(lines)
            except Unread as fault:
                self.faults.append(f"{lines[0]}: {fault}")
        self.faults += [f"no place plants the effect {name}" for name, it in self.effects.items() if not it.planted]
        self.faults += [f"a family has no edits: {title}" for title, count in self.families if not count]

    def read(self, lines):
        """Reads a block: the head of a family, an effect, or one or more edits."""
        if lines[0].startswith("== ") and len(lines) > 1:
            self.families.append([lines[0][len("== ") :], 0])
            return
        head = re.fullmatch(r"(edit|effect|place) (\w+)", lines[0])
        if not head or len(lines) < 3 or not self.families:
            raise Unread("a block begins with '== TITLE', 'edit NAME', 'effect NAME' or 'place NAME', and goes on with a sentence")
        self.families[-1][1] += 1
        word, name, says, fields = head[1], head[2], lines[1], fields_of(lines[2:])
        if word == "effect":
            self.add(self.effects, name, read_effect(says, fields))
        elif word == "edit":
            self.add(self.edits, name, read_edit(self.crate, name, says, fields))
        else:
            for edit in planted(self.effects, self.crate, name, says, fields):
                self.add(self.edits, edit.name, edit)

    def add(self, by_name, name, it):
        """Keeps an edit or an effect, which has a name of its own."""
        if name in by_name:
            raise Unread(f"there are two of this name: {name}")
        if not it.says.endswith("."):
            raise Unread("its sentence has no full stop")
        if by_name is self.edits and self.families[-1][0] == MAIN:
            if it.kind != CLAUSE:
                raise Unread("a clause has to refuse an edit of a main promise")
            it.is_main = True
        by_name[name] = it


def crates():
    """Returns the folders of the crates."""
    return sorted(it for it in (ROOT / "crates").iterdir() if it.is_dir())


def read_single(crate, name):
    """Returns an edit of must-fail/. The first two lines, which `rt must-fail` doesn't read, say what is wrong and which clause refuses it."""
    lines = (crate / "must-fail" / f"{name}.edit").read_text(encoding="utf-8").split("\n")
    head = re.fullmatch(r"# (.*\.)\n# clause: (.*)", "\n".join(lines[:2]))
    if not head:
        raise Unread("it has to begin with a line '# SENTENCE.' and a line '# clause: FUNCTION, CLAUSE'")
    edit, path, old = Edit(crate, name, head[1], kind=CLAUSE, refused_by=refused_by(CLAUSE, head[2])), "", ""
    for line in lines[2:]:
        if line.startswith("file: "):
            path = line[len("file: ") :].strip()
        elif line.startswith("old: "):
            old = line[len("old: ") :]
        elif line.startswith("new:"):
            edit.pairs.append((path, old, re.sub(r"\A ", "", line[len("new:") :])))
            old = ""
        elif line:
            raise Unread(f"a line begins with none of file:, old: and new:, so it is not read: {line}")
    return edit


def changed(texts, crate, path, old, new):
    """Puts the new text in the place of the old one, and returns why it cannot."""
    file = crate / path
    if not path.startswith(("src/", "specs/", "proofs/")) or ".." in path or not file.is_file():
        return f"there is no file {path}"
    if not old:
        return "a new text has no old one"
    text = texts.get(path) or file.read_text(encoding="utf-8")
    if text.count(old) != 1:
        return f"an old text is in {path} {text.count(old)} times, and not once: {old}"
    if old == new:
        return f"it changes nothing in {path}"
    texts[path] = text.replace(old, new)
    return None


def edited(edit, crate=None):
    """Returns the texts of the files that the edit changes, by their paths in the crate, and why it does not apply."""
    texts = {}
    for path, old, new in edit.pairs:
        if fault := changed(texts, crate or edit.crate, path, old, new):
            return texts, fault
    return texts, None if texts else "it has no old and new text"


def apply(texts, crate):
    """Writes the texts into the crate, and returns those that were there."""
    kept = {path: (crate / path).read_text(encoding="utf-8") for path in texts}
    for path, text in texts.items():
        (crate / path).write_text(text, encoding="utf-8")
    return kept
