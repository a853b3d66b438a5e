"""Edits of different functions of a crate, which one check tries together. To load what the proofs cite takes most of a check's time.

A proof rests on the contracts of what a function calls, and on no body. So if each edit of a batch changes just bodies, and no two change a
function of the same name, a goal that fails in a function is the doing of the one edit that changes it.
"""

import re

from editing import changed
from functions import changed_by, functions_of, is_in_body

# How many edits are tried together at most.
MOST = 16
# Words of what may change more than a body.
BEYOND = re.compile(r"\b(?:ensures|requires|invariant|ghost|fn|impl|struct|enum|trait|const|static|type|use|mod|macro_rules)\b|#\[")


def texts_of(edits):
    """Returns the texts that edits of a crate make together, or None if one changes what another one does."""
    texts = {}
    return None if any(changed(texts, it.crate, *pair) for it in edits for pair in it.pairs) else texts


def changes_bodies(edit):
    """Whether the edit changes bodies alone, among them the one of the function that has to refuse it."""
    texts = {}
    for path, old, new in edit.pairs:
        text = texts.get(path) or (edit.crate / path).read_text(encoding="utf-8")
        number, lines = text.partition(old)[0].count("\n") + 1, text.splitlines()
        inside = [it for it in functions_of(path, text) if it.first <= number <= it.last]
        if not inside or not is_in_body(number, inside[-1], lines) or BEYOND.search(f"{old}\n{new}"):
            return False
        texts[path] = text.replace(old, new)
    return edit.refused_by[0].split("::")[-1] in {it.name for it in changed_by(edit) or ()}


def batches_of(edits):
    """Returns edits of a crate in batches, in each of which no name of a function is changed twice. One that may change any function is
    in none."""
    batches = []
    for edit in edits:
        names = {it.name for it in changed_by(edit) or ()}
        if not names or not texts_of([edit]):
            continue
        fits = (it for it in batches if len(it[1]) < MOST and not it[0] & names and texts_of([*it[1], edit]))
        batch = next(fits, None) or (set(), [])
        if not batch[1]:
            batches.append(batch)
        batch[0].update(names)
        batch[1].append(edit)
    return [edits for _, edits in batches]
