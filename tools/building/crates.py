"""The crates of the repository: what each stands on, and the stamp of the sources that it is built from."""

import os
import re
import subprocess

# What `rattle build` reads of a crate.
PARTS = ("src", "specs", "proofs")


class Crate:
    """A crate, with the libraries that its line of crates.txt names, in that order."""

    def __init__(self, top, name, uses):
        self.name = name
        self.folder = f"{top}/crates/{name}"
        self.uses = uses

    @property
    def is_program(self):
        return os.path.isfile(f"{self.folder}/src/main.rt")

    @property
    def root(self):
        return "src/main.rt" if self.is_program else "src/lib.rt"

    def lines(self):
        """Returns how many lines of code and of definitions and proofs the crate has."""
        counts = {".rt": 0, ".antt": 0}
        for folder, _, names in (it for part in PARTS for it in os.walk(f"{self.folder}/{part}")):
            for name in names:
                kind = os.path.splitext(name)[1]
                if kind in counts:
                    with open(f"{folder}/{name}", "rb") as file:
                        counts[kind] += file.read().count(b"\n")
        return counts[".rt"], counts[".antt"]


def read_crates(top):
    """Returns the repository's crates by name, as crates.txt at its top lists them."""
    crates = {}
    with open(f"{top}/crates.txt", encoding="utf-8") as file:
        for line in file:
            row = re.fullmatch(r"(\w+):(( \w+)*)", line.partition("#")[0].strip())
            if row:
                crates[row[1]] = Crate(top, row[1], row[2].split())
            elif line.partition("#")[0].strip():
                raise ValueError(f"crates.txt: this line names no crate: {line.strip()}")
    return crates


def below(crates, name):
    """Returns the names of the crates that this one stands on, and its own, lowest first."""
    found = {}

    def visit(at):
        for used in crates[at].uses:
            if used in crates and used not in found:
                visit(used)
        found[at] = True

    visit(name)
    return list(found)


def stamps(top, names):
    """Returns for each of the crates the stamp of the sources that it is made of, its own and those below it."""
    found = subprocess.run([f"{top}/tools/stamp", *names], stdout=subprocess.PIPE, text=True, check=False)
    if found.returncode:
        raise OSError("the stamp of the sources cannot be taken")
    return {name: stamp for stamp, name in (line.split() for line in found.stdout.splitlines())}
