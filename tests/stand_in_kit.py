"""In the place of the toolchain's module, for tests of the gate and of the wrapper: the crates of a repository, each with a stamp."""

import hashlib
import os


class Crate:
    """A crate's stamp is the sum of its line of crates.txt, of its sources, and of the stamps of those that it uses."""

    def __init__(self, root, line, all_crates):
        self.name, self.line, self.all_crates = line.split(":")[0].split()[0], line, all_crates
        self.folder = f"{root}/crates/{self.name}"

    def stamp(self):
        found = hashlib.sha256(self.line.encode())
        for at, folders, names in os.walk(self.folder):
            folders[:] = sorted(it for it in folders if it in ("src", "specs", "proofs") or at != self.folder)
            for name in sorted(names):
                with open(f"{at}/{name}", "rb") as file:
                    found.update(file.read())
        for it in self.line.partition(":")[2].split():
            if it in self.all_crates:
                found.update(self.all_crates[it].stamp().encode())
        return found.hexdigest()

    def has_tests(self):
        return self.name.endswith("_tests")


def crates_below(root):
    with open(f"{root}/crates.txt", encoding="utf-8") as file:
        lines = [line.partition("#")[0].strip() for line in file]
    found = {}
    for line in filter(None, lines):
        crate = Crate(root, line, found)
        found[crate.name] = crate
    return list(found.values())
