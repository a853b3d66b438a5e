"""What `rt ci` has proved on this machine, and what it counted there.

`rt ci` keeps what passed, by the sums of all that it read, and takes it over in a later run. Then it says neither how many functions of the
crate may wait (may_wait of crates.txt), nor what its tests may do (tests_may). So both are written down where the toolchain keeps its
proofs: a file for a crate's proof and one for its tests, named by the crate's stamp. `rt` makes that stamp of the crate's line of
crates.txt and of all sources of it and of those below it.

`rt ci` leaves its libraries without stamps, so `rt check` would prove them again. `stamp_libraries` writes these.
"""

import contextlib
import functools
import hashlib
import os
import re
import shutil
import subprocess
import sys
import tempfile
from pathlib import Path

import program
from runner import at_a_time, processors

ROOT = program.ROOT
# Prints each crate with its stamp, and whether it has tests. The words are the folder of the toolchain's programs, and a repository. A
# crate's stamp rests on those below it, which are asked for once.
STAMPS = """import functools, sys
sys.path.insert(0, sys.argv[1])
import rtlib
rtlib.Crate.stamp = functools.cache(rtlib.Crate.stamp)
for crate in rtlib.crates_below(sys.argv[2]):
    print(crate.name, crate.stamp(), int(crate.has_tests()))
"""
HEAD = re.compile(r"== (\w+)(: its tests)?")
KEPT = re.compile(r"rt: (\w+) is kept: ")
PROVED = re.compile(r"rt: (\w+)(: its tests are)? proved")
UNPROVED = re.compile(r"rt: (\w+)(: its tests are)? NOT PROVED")
# The files beside src/ that `rt` reads for a program.
STREAMS = ("stdin", "stdout", "args", "status")
# What `rt ci` says at its end if it took nothing over.
ALL_ANEW = "every proof and must-fail edit was done in this run"
# The memory that there has to be for each processor that `rt ci` is told to use. The largest proof takes 7 GB, and most take up to 3.
MEMORY = 5 << 30


@functools.cache
def kit():
    """Returns the folder of the toolchain."""
    return Path(subprocess.run(["rt", "doc"], capture_output=True, text=True, check=True).stdout.strip()).parent


@functools.cache
def identity():
    """Returns the toolchain's name for itself."""
    return subprocess.run(["rt", "version"], capture_output=True, text=True, check=True).stdout.strip()


def stamps(root=ROOT):
    """Returns, by crate, the stamp of its sources as they are, and whether it has tests."""
    words = [sys.executable, "-c", STAMPS, kit() / "bin", root]
    lines = subprocess.run(words, capture_output=True, text=True, check=True).stdout.splitlines()
    return {name: (stamp, has_tests == "1") for name, stamp, has_tests in map(str.split, lines)}


def environment():
    """Returns the environment in which `rt ci` proves one crate a processor, if there is memory for that. It estimates that a proof needs up to
    twice what that takes, and so would leave processors idle."""
    count = processors()
    return {"RT_JOBS": str(count), **os.environ} if at_a_time(MEMORY) == count else {**os.environ}


# What is written down on this machine.


def notes():
    """Returns the folder of what is written down on this machine, beside what the toolchain keeps."""
    return kit().parent / "rattle-kept" / "ftrighub"


def read_note(name):
    """Returns what was written down by this name, or None."""
    with contextlib.suppress(OSError):
        return (notes() / name).read_text(encoding="utf-8")
    return None


def write_note(name, text):
    """Writes this down by this name, in one step. Where nothing can be written, the toolchain keeps no proof either."""
    with contextlib.suppress(OSError):
        notes().mkdir(parents=True, exist_ok=True)
        with tempfile.NamedTemporaryFile("w", dir=notes(), delete=False, encoding="utf-8") as file:
            file.write(text)
        os.replace(file.name, notes() / name)


# What was counted.


def counts_in(lines):
    """Returns what `rt` counted, by crate and whether it is of the crate's tests: the words of the last line of each proof."""
    found, block = {}, None
    for line in lines:
        if head := HEAD.fullmatch(line):
            block = head[1], bool(head[2])
        elif block and line.startswith("logic=proved "):
            found[block] = count_in(line, block[1])
    return found


def is_unproved(crate, lines):
    """Returns whether `rt ci` says that it couldn't prove a crate or its tests."""
    return crate in {found[1] for line in lines if (found := UNPROVED.match(line))}


def count_in(line, is_of_tests):
    """Returns how many functions may wait, or what the tests may do but for ending by a failed assertion, by the last line of a proof."""
    words = dict(word.partition("=")[::2] for word in line.split())
    if is_of_tests:
        return "+".join(word for word in words.get("main", "").split("+") if word not in ("", "Abort"))
    return words.get("may-wait", "0")


def sum_of(text):
    return hashlib.sha256(text.encode()).hexdigest()[:32]


def name_of(crate, is_of_tests, stamp):
    return f"{crate}{'.tests' if is_of_tests else ''}-{sum_of(f'{identity()} {stamp}')}"


def note_counts(counts, made_of):
    """Writes down what was counted of crates with these stamps."""
    for (crate, is_of_tests), count in counts.items():
        if crate in made_of:
            write_note(name_of(crate, is_of_tests, made_of[crate][0]), count)


def noted_count(crate, is_of_tests, stamp):
    """Returns what was counted of a crate with this stamp, or None if nothing is written down."""
    return read_note(name_of(crate, is_of_tests, stamp))


# The sources and the libraries.


def crates_below(name):
    """Returns the names of the crate and of those that it uses, by crates.txt."""
    return {*program.with_below(name, program.uses(program.rows()))}


def copy_sources(tree):
    """Copies the crates, and the files beside them that `rt` reads."""
    shutil.copytree(ROOT / "crates", tree / "crates", ignore=shutil.ignore_patterns("out"))
    for file in ("crates.txt", "HANDLES"):
        shutil.copy(ROOT / file, tree)


def copy_with_libraries(tree, name):
    """Copies the sources. The crates below this one have their libraries there, as they are."""
    copy_sources(tree)
    for below in crates_below(name) - {name}:
        if library_of(below).is_dir():
            copy_library(library_of(below), tree / "crates" / below / "out" / "rlib")


def copy_library(library, to):
    """Gives the files of a library second names. (`rt` removes such a file before it makes it anew, and never writes into it.)"""
    shutil.copytree(library, to, copy_function=link_or_copy)


def link_or_copy(file, to):
    try:
        os.link(file, to)
    except OSError:
        shutil.copy2(file, to)


def library_of(name, root=ROOT):
    """Returns the folder of a crate's library."""
    return root / "crates" / name / "out" / "rlib"


def remove_libraries(names):
    """Removes the libraries of earlier checks, also where a run that was killed had set them aside. `rt ci` would put them in the place
    of its own."""
    for folder in [*map(library_of, names), *ROOT.glob(".git/rt-aside/*/rlib")]:
        shutil.rmtree(folder, ignore_errors=True)


def stamp_libraries(before, root=ROOT):
    """Writes the stamps of the libraries that `rt ci` has made, by which `rt check` knows that they are of these sources. These were the stamps
    before it; if a source has changed meanwhile, nobody knows of what the library is."""
    now = stamps(root)
    for name, (stamp, _) in before.items():
        library = library_of(name, root)
        if now.get(name) == before[name] and (library / f"{name}.rlib" / "format").is_file():
            (library / "stamp").write_text(stamp, encoding="utf-8")


def take_libraries(tree, names):
    """Puts the libraries of another tree into this one, if they are of the sources as they are here."""
    for name in names:
        made, own = library_of(name, tree), library_of(name)
        if (made / "stamp").is_file() and (made / "stamp").read_text(encoding="utf-8") == stamps_now()[name][0] and fault_of(name):
            shutil.rmtree(own, ignore_errors=True)
            copy_library(made, own)


def fault_of(name):
    """Returns why a crate's library can't be used, or None."""
    stamp = library_of(name) / "stamp"
    if not stamp.is_file():
        return f"the library {name} isn't built"
    return None if stamp.read_text(encoding="utf-8") == stamps_now()[name][0] else f"the library {name} isn't of the sources as they are"


@functools.cache
def stamps_now():
    return stamps()
