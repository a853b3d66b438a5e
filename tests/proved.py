"""Whether the prover proves wrong changes that only a test has to refuse. If it doesn't prove one, a clause refuses it, and edits.txt has
to name that.

Each function that an edit changes is checked as the edit makes it, over the libraries below its crate. Edits of different functions
are checked together: a proof rests on the contracts of what a function calls, and on no body. One that isn't proved so is checked alone.
Then it may fail only because the function's proof in proofs/ is of the body without the edit. So it is checked once more without that
proof, by the tactics alone."""

import re
import tempfile
import time
from pathlib import Path

import clauses
from batches import batches_of, texts_of
from editing import apply, edited
from functions import changed_by, functions_in, is_plain, whole_path
from proofs import copy_with_libraries
from running import Untried

# A line about a function, as a check tells with --progress.
VERDICT = re.compile(r"^fn \w+::(\S+): proved", re.M)


def names_of(crate, functions):
    """Returns the names by which `rt` knows functions: plain ones, or their whole paths."""
    all_names = [it.name for it in functions_in(crate)]
    return sorted({it.name if is_plain(crate, it.name, all_names) else whole_path(crate, it) for it in functions})


def proofs_of(crate, functions):
    """Returns the folders with the proofs of these functions."""
    folders = [crate / "proofs" / whole_path(crate, it).replace("::", "/") for it in functions]
    return [it for it in folders if it.is_dir()]


def fault_in(tree, edit, end):
    """Returns why the edit isn't proved in a copy that has the libraries, or None. Raises Untried if that isn't known."""
    crate = tree / "crates" / edit.crate.name
    texts, fault = edited(edit, crate)
    if fault:
        return fault
    functions = changed_by(edit)
    names, proofs = names_of(edit.crate, functions or ()), proofs_of(crate, functions or ())
    kept = apply(texts, crate)
    status, said = clauses.check(tree, crate, names, end)
    if status == 1 and proofs:
        for at, folder in enumerate(proofs):
            folder.rename(tree / f"proof{at}")
        again = clauses.check(tree, crate, names, end)
        status, said = again if again[0] == 0 else (status, said)
        for at, folder in enumerate(proofs):
            (tree / f"proof{at}").rename(folder)
    apply(kept, crate)
    return None if status == 0 else f"the prover doesn't prove it: {clauses.said_of(status, said, edit)}"


def fault_of(edit, folder, end):
    """Returns why the edit isn't proved, or None. Its copy of the sources is below the folder. Raises Untried if that isn't known."""
    if why := clauses.lacking(edit.crate.name):
        raise Untried(why)
    with tempfile.TemporaryDirectory(dir=folder) as work:
        copy_with_libraries(Path(work), edit.crate.name)
        return fault_in(Path(work), edit, end)


def proved_in(tree, edits, end):
    """Returns those of a batch that are proved. If together they can't be compiled, each half is checked for itself."""
    crate, functions = edits[0].crate, {it.path: changed_by(it) for it in edits}
    kept = apply(texts_of(edits), tree / "crates" / crate.name)
    names = names_of(crate, [it for some in functions.values() for it in some])
    _, said = clauses.check(tree, tree / "crates" / crate.name, names, end, "--progress")
    apply(kept, tree / "crates" / crate.name)
    if not re.search(r"^only=", said, re.M) and len(edits) > 1:
        half = len(edits) // 2
        return [*proved_in(tree, edits[:half], end), *proved_in(tree, edits[half:], end)]
    proved = set(VERDICT.findall(said))
    names = {it.split("::")[-1] for it in proved}
    wanted = {it.path: {name for _, _, new in it.pairs for name in re.findall(r"\bfn (\w+)", new)} for it in edits}  # (also those that it adds)
    return [it for it in edits if wanted[it.path] <= names and all(whole_path(crate, one) in proved for one in functions[it.path])]


def unproved(edits, folder, end):
    """Returns why edits of one crate aren't proved, by their paths. They have one copy of the sources, in which a check begins with what those
    before it have proved."""
    faults = {}
    with tempfile.TemporaryDirectory(dir=folder) as work:
        tree, left = Path(work), [*edits]
        copy_with_libraries(tree, edits[0].crate.name)
        for batch in (it for it in batches_of(edits) if len(it) > 1):
            begun, proved = time.monotonic(), proved_in(tree, batch, end)
            print(f"{edits[0].crate.name}: {len(proved)} of {len(batch)} edits are proved together, {time.monotonic() - begun:.0f} s", flush=True)
            left = [it for it in left if it not in proved]
        for edit in left:
            try:
                faults[edit.path] = fault_in(tree, edit, end)
            except Untried as why:
                faults[edit.path] = why
            print(f"{edit.path}: {faults[edit.path] or 'it is proved'}", flush=True)
    return {path: why for path, why in faults.items() if why}
