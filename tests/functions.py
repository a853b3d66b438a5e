"""The functions of a crate, as `rt` names them, and those that an edit changes."""

import re
import sys
from pathlib import Path
from typing import NamedTuple

# Functions that a derive may write besides, whose names alone say too little.
DERIVED = {"clone", "cmp", "eq", "fmt", "hash", "partial_cmp"}
# The head of a trait or an impl: the trait, or the impl's parameters, its trait with its types, and its type.
HEAD = re.compile(r"(?:pub )?(?:trait (\w+)|impl(?:<(.*?)>)? (?:([\w:]+)(?:<(.*)>)? for )?&?([\w:]+))")
# A line behind a function at whose depth it is.
NEXT = re.compile(r"///|#\[|(?:pub(?:\([^)]*\))? )?(?:fn|const|static|struct|enum|type|use|impl|trait|mod)\b")
CONSTANT = re.compile(r"(?:pub(?:\([^)]*\))? )?(?:const|static) (\w+):")


class Function(NamedTuple):
    """A function: its file, its first and last line, its type, its trait with its types, and its name. What a type or trait lacks is
    empty."""

    file: str
    first: int
    last: int
    kind: str
    trait: str
    name: str


def joined(words, left_out):
    """Returns the words of a text as one word, as `rt` names an impl by the types in its head, without its parameters."""
    return "".join(it[0].upper() + it[1:] for it in re.findall(r"\w+", words) if it not in left_out)


def last_line(lines, first):
    """Returns the number of a function's last line. `first` is that of its first one."""
    head = lines[first - 1]
    depth = len(head) - len(head.lstrip())
    if head.endswith(("}", ";")):
        return first
    for number, line in enumerate(lines[first:], first + 1):
        text = line.strip()
        at = len(line) - len(line.lstrip())
        if at == depth and text in ("}", "{}"):
            return number
        if text and (at < depth or (at == depth and NEXT.match(text))):
            return number - 1
    return len(lines)


def functions_of(file, text):
    """Yields the functions in the text of a file."""
    lines, kind, trait = text.splitlines(), "", ""
    for number, line in enumerate(lines, 1):
        if head := HEAD.match(line):
            name, parameters, of, types, it = head.groups()
            kind = (it or "").split("::")[-1]
            trait = (of or name or "").split("::")[-1] + joined(types or "", re.findall(r"(?:^|, )(\w+)", parameters or ""))
        elif line.startswith("}"):
            kind = trait = ""
        for name in re.findall(r"\bfn (\w+)", line):
            yield Function(file, number, last_line(lines, number), kind, trait, name)


def functions_in(crate):
    """Yields the functions of a crate."""
    for file in sorted(crate.glob("src/**/*.rt")):
        yield from functions_of(str(file.relative_to(crate)), file.read_text(encoding="utf-8"))


def home_of(crate, it):
    """Returns the file by which `rt` names the functions of an impl: its own, or that of the type if it has no trait."""
    declared = re.compile(rf"^(?:pub(?:\([^)]*\))? )?(?:struct|enum) {it.kind}\b", re.M)
    others = (file for file in sorted(crate.glob("src/**/*.rt")) if declared.search(file.read_text(encoding="utf-8")))
    return next((str(file.relative_to(crate)) for file in others), it.file) if it.kind and not it.trait else it.file


def whole_path(crate, it):
    """Returns the path of a function with its module and type."""
    module = [word for word in home_of(crate, it)[len("src/") : -len(".rt")].split("/") if word != "lib"]
    return "::".join([*module, *([it.kind + it.trait] if it.kind + it.trait else []), it.name])


def is_plain(crate, name, names):
    """Whether `rt` knows a function by its name alone, if these are the names of all."""
    return names.count(name) == 1 and name not in DERIVED and not any(crate.glob(f"src/**/{name}.rt"))


def path_of(edit):
    """Returns the path by which `rt` knows the function that has to refuse the edit: its name, or, if the crate has several of that name
    or a module of it, with its module and type. A function in a file that the edit changes comes first, and there the one nearest above
    the change."""
    *owner, name = edit.refused_by[0].split("::")
    found = [it for it in functions_in(edit.crate) if it.name == name]
    if is_plain(edit.crate, name, [it.name for it in found]):
        return name
    changed = {}
    for path, old, _ in edit.pairs:
        changed.setdefault(path, (edit.crate / path).read_text(encoding="utf-8").partition(old)[0].count("\n") + 1)

    def distance(it):
        return changed[it.file] - it.first if it.file in changed and it.first <= changed[it.file] else sys.maxsize - (it.file in changed)

    fits = [it for it in found if not owner or owner[-1] in (it.kind, it.trait, it.kind + it.trait, Path(it.file).stem)]
    return whole_path(edit.crate, min(fits, key=distance)) if fits else edit.refused_by[0]


def users_of(crate, line):
    """Returns the functions that name the constant of a line, or None if it is no constant's."""
    constant = CONSTANT.match(line.strip())
    if not constant:
        return None
    texts = {str(it.relative_to(crate)): it.read_text(encoding="utf-8").splitlines() for it in crate.glob("src/**/*.rt")}
    named = re.compile(rf"\b{constant[1]}\b")
    return [it for it in functions_in(crate) if named.search("\n".join(texts[it.file][it.first - 1 : it.last]))]


def proved_in(crate, path):
    """Returns the functions whose proof a file of proofs/ is."""
    return [it for it in functions_in(crate) if Path(path).parent == Path("proofs", *whole_path(crate, it).split("::"))]


def changed_by(edit):
    """Returns the functions that an edit changes, be it in a constant that they name or in their proof. If it changes anything else, that
    is None: all functions of the crate may rest on it. A line `use` or `///` says nothing."""
    texts, found = {}, []
    for path, old, new in edit.pairs:
        text = texts.get(path) or (edit.crate / path).read_text(encoding="utf-8")
        number = text.partition(old)[0].count("\n") + 1
        line = text.splitlines()[number - 1]
        inside = [it for it in functions_of(path, text) if it.first <= number <= it.last]
        users = [inside[-1]] if inside else users_of(edit.crate, line)
        if path.endswith(".rt") and users is not None:
            found += users
        elif proved := proved_in(edit.crate, path):
            found += proved
        elif not re.match(r"(ghost )?use |\s*///", line):
            return None
        texts[path] = text.replace(old, new)
    return [*{it[3:]: it for it in found}.values()]


def changes_definitions(edit):
    """Whether an edit changes what lemmas may rest on, and not just functions and their proofs: a definition of specs/, or a constant."""
    texts = {}
    for path, old, new in edit.pairs:
        if not path.endswith(".rt"):
            if path.startswith("specs/"):
                return True
            continue
        text = texts.get(path) or (edit.crate / path).read_text(encoding="utf-8")
        number = text.partition(old)[0].count("\n") + 1
        is_inside = any(it.first <= number <= it.last for it in functions_of(path, text))
        if not is_inside and not re.match(r"(ghost )?use |\s*///", text.splitlines()[number - 1]):
            return True
        texts[path] = text.replace(old, new)
    return False


def is_in_body(number, it, lines):
    """Whether a line of the text is in the body of a function, and not in its contract."""
    head = lines[it.first - 1]
    opening = head[: len(head) - len(head.lstrip())] + "{"
    below = [at for at, line in enumerate(lines[it.first : it.last], it.first + 1) if line == opening]
    return number > (below[0] if below else it.first)
