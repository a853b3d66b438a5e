"""Wrong changes that the prover has to refuse: at which goal it did, and how they are tried.

The edits of must-fail/ are tried by `rt ci`, over the whole crate. An edit of edits.txt is tried over the function that it names, and those
that this one calls, which takes half a minute once the libraries below are built. Edits of different bodies are tried together first
(tests/batches.py): the clause of each has to be the one that fails in its function. What isn't refused so is tried alone.
"""

import os
import re
import subprocess
import sys
import tempfile
import time
from pathlib import Path

from batches import batches_of, changes_bodies, texts_of
from editing import apply, edited
from functions import changes_definitions, path_of
from proofs import copy_with_libraries, crates_below, fault_of as fault_of_library, kit
from running import Untried, run

REFUSED = re.compile(r"must-fail (\w+)/([\w.-]+)\.edit: refused, as it must be(.*)")
# A line about a goal that isn't proved, and one about a proof file that names what an edit took away.
TOLD = re.compile(r"(note: )?\S+:\d+:\d+: ")
NAMES = re.compile(r"(note: )?(\./)?proofs/.*(has no field|is not in scope|has no `|was not admitted)")
# A line about proofs that rest on a lemma which isn't proved.
RESTS = re.compile(r"(?:\./)?proofs/(?:\w+/)*(\w+)/\w+\.antt:.* which was not admitted, (?:was|were) not checked: (.*)")
# A line about a goal that no tactic proves, of a function without a proof file.
OPEN = re.compile(r"note: `([^`]+)` of (?:\./)?proofs/(?:\w+/)*(\w+)/\w+\.antt must prove: ")
# How many seconds a check may take, if nothing else says when it ends.
SECONDS = 3600
# Runs `rt check` over the libraries as they are, and has it share nothing with other copies. The first word is the folder of the toolchain's
# programs.
CHECK = """import os, sys
sys.path.insert(0, sys.argv[1])
import rtlib
rtlib.Crate.is_built = lambda crate: os.path.isdir(crate.rlib)
sys.exit(rtlib.main("check", *sys.argv[2:]))
"""


def function_of(text, edit):
    """Returns the name of the function in which a goal failed: the one at or nearest above the line, the one below it if
    the line is an attribute, or the one whose proof it is."""
    at = re.match(r": (?:note: )?(?:\./)?(src/[\w/]+\.rt):(\d+):", text)
    if at:
        source = edited(edit)[0].get(at[1]) or (edit.crate / at[1]).read_text(encoding="utf-8")
        lines, end = source.split("\n"), int(at[2])
        while lines[end - 1].lstrip().startswith("#["):
            end += 1
        return (re.findall(r"\bfn (\w+)", "\n".join(lines[:end])) or ["no function"])[-1]
    at = re.match(r": (?:\./)?proofs/(?:\w+/)*(\w+)/\w+\.antt:", text)
    return at[1] if at else "no function"


def clause_of(text):
    """Returns the clause whose goal failed, as edits.txt and the files of must-fail/ name it."""
    goal = re.search(r"(?:\(|error: )`([^`]*)", text)
    goal = goal[1] if goal else ""
    name = re.search(r"clause-(\w+)", goal)
    if re.search(r"^loop|-(init|preserved)\b", goal):
        return "loop"
    if "requires" in goal:
        return f"requires {name[1]}" if name else "requires"
    if goal.startswith("inv"):  # (rt prints no more than 160 characters)
        return "invariant"
    goal = re.sub(r"^\w+-(?=returns\b)", "", goal)  # (functions that call one another are named before their goals)
    if not goal.startswith("returns"):
        return f"no clause, but {goal or 'no goal'}"
    return name[1] if name else "ensures"


def differs(text, edit):
    """Returns how what refused the edit differs from what has to, or None. The text is what follows 'as it must be'."""
    if text is None:
        return "no line says that it was refused"
    if "only because a proof file names" in text:
        return "it is refused only because a proof file names what it took away"
    function, clause = function_of(text, edit), clause_of(text)
    if (edit.refused_by[0].split("::")[-1], edit.refused_by[1]) != (function, clause):
        return f"it has to be refused by {edit.refusal()}, but what failed is {function}, {clause}"
    return None


def refused_in(report):
    """Returns what a report says of the edits that were refused, by their crates and names."""
    return {(crate, name): text for crate, name, text in REFUSED.findall(report)}


def lacking(name):
    """Returns why a library below this crate can't be used, or None."""
    return next((fault for it in sorted(crates_below(name) - {name}) if (fault := fault_of_library(it))), None)


def failed_in(said, edit):
    """Returns the functions and clauses whose goals failed, by what a check said. If an edit changes a definition or a constant, a lemma
    may fail in their place, on which their proofs rest."""
    told = [it for it in said.splitlines() if TOLD.match(it)]
    failed = [(function_of(f": {it}", edit), clause_of(f": {it}")) for it in told if not NAMES.match(it)]
    if failed and changes_definitions(edit):
        rests = [found for it in told if (found := RESTS.match(it))]
        failed += [(it[1], clause_of(f": error: `{goal}`")) for it in rests for goal in it[2].split(", ")]
        failed += [(it[2], clause_of(f": error: `{it[1]}`")) for it in map(OPEN.match, said.splitlines()) if it]
    return failed


def check(tree, crate, names, end, *more):
    """Checks these functions of a crate's copy, or all if there is none. Returns the status, or None if there was no time, and what it says."""
    words = [sys.executable, "-c", CHECK, kit() / "bin", "--jobs", "1", *more, *(it for name in names for it in ("--only", name))]
    return run(words, tree / "output", end, cwd=crate, env={**os.environ, "TMPDIR": str(tree)})


def said_of(status, said, edit):
    """Returns in a line what a check that failed says. Raises Untried if it has no verdict."""
    if unknown := re.search(r"^rattle: error: .*\bfunctions?\b.*", said, re.M):
        return unknown[0]
    if status != 1:
        raise Untried("there is no time left" if status is None else f"its check ended with status {status}: {said.strip()[-200:]}")
    if failed := failed_in(said, edit):
        return f"what failed is {'; '.join(f'{function}, {clause}' for function, clause in failed)}"
    told = [it for it in said.splitlines() if TOLD.match(it)] or [said.strip()[:200]]
    return f"no goal failed, and the check says first: {told[0][:200]}"


def fault_of(tree, edit, end):
    """Returns why the edit isn't refused by its clause in a copy that has the libraries. Raises Untried if that isn't known."""
    crate, wanted = tree / "crates" / edit.crate.name, (edit.refused_by[0].split("::")[-1], edit.refused_by[1])
    texts, fault = edited(edit, crate)
    if fault:
        return fault
    kept = apply(texts, crate)
    status, said = check(tree, crate, [path_of(edit)], end)
    apply(kept, crate)
    if wanted in failed_in(said, edit):
        return None
    return f"{edit.refused_by[0]} is proved with it" if status == 0 else said_of(status, said, edit)


def build_below(name):
    """Builds the libraries below a crate, if they aren't there. Returns why they can't be built, or None."""
    if not lacking(name):
        return None
    built = subprocess.run(["rt", "check", "--only", ""], cwd=ROOT / "crates" / name, capture_output=True, text=True, check=False)
    return f"its libraries can't be built: {(built.stdout + built.stderr).strip()[-200:]}" if built.returncode else None


def refused_together(tree, edits, end):
    """Returns those of a batch that their clauses refuse, if they are tried together. Of the others this says nothing. If together they
    can't be compiled, each half is tried for itself."""
    crate = tree / "crates" / edits[0].crate.name
    kept = apply(texts_of(edits), crate)
    _, said = check(tree, crate, sorted({path_of(it) for it in edits}), end)
    apply(kept, crate)
    if not re.search(r"^only=", said, re.M) and len(edits) > 1:
        half = len(edits) // 2
        return [*refused_together(tree, edits[:half], end), *refused_together(tree, edits[half:], end)]
    return [it for it in edits if (it.refused_by[0].split("::")[-1], it.refused_by[1]) in failed_in(said, it)]


def try_edits(edits):
    """Tries edits of one crate: those of different bodies together, and then one after the other those that weren't refused so. Yields each
    with its fault and its seconds."""
    name, left = edits[0].crate.name, [*edits]
    why = build_below(name)
    with tempfile.TemporaryDirectory() as work:
        copy_with_libraries(Path(work), name)
        for batch in batches_of([it for it in edits if changes_bodies(it)]) if not why else ():
            begun = time.monotonic()
            refused = refused_together(Path(work), batch, begun + SECONDS) if len(batch) > 1 else []
            left = [it for it in left if it not in refused]
            for edit in refused:
                yield edit, None, (time.monotonic() - begun) / len(batch)
        for edit in left:
            begun, found = time.monotonic(), why
            if not why:
                try:
                    found = fault_of(Path(work), edit, begun + SECONDS)
                except Untried as fault:
                    found = fault
            yield edit, found, time.monotonic() - begun
