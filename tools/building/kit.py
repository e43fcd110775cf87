"""The kit: where it is, the words that its prover and linker get, and what counts as a proof.

The words are those that `rt ci` gives for a library and a program, so what is built here is what the gate builds.
"""

import hashlib
import os
import re
import shutil

# The last line of a crate that is proved from nothing, as the gate wants it where no handle is allowed. A line of a
# check that took kept work, that rests on C functions of the repository, or that may wait or abort has more words.
PROVED = re.compile(
    r"logic=proved functions=\d+( (axioms|target|cpu)=\S+)* sum=[0-9a-f]+ native=nat,char,string"
    r" logic-built=trusted libraries-built=trusted statements=trusted"
)


class Kit:
    def __init__(self, folder):
        self.folder = folder
        self.rattle = f"{folder}/bin/rattle"
        with open(f"{folder}/KIT-ID", encoding="utf-8") as file:
            self.line = file.read().strip()

    def identity(self):
        """Returns a sum of the kit's line and of the file that names its archive, its commit and its compiler."""
        with open(f"{self.folder}/WHAT", "rb") as file:
            return hashlib.sha256(self.line.encode() + b"\n" + file.read()).hexdigest()

    def build_words(self, crates, crate, libraries, made, jobs):
        """Returns the command that proves a crate and builds what it makes, over the libraries in a folder."""
        words = [self.rattle, "build", "--crate-name", crate.name, crate.root]
        words += ["--extern", f"std={self.folder}/rlibs/std.rlib"]
        for name in crate.uses:
            place = libraries if name in crates else f"{self.folder}/rlibs"
            words += ["--extern", f"{name}={place}/{name}.rlib"]
        words += ["-L", f"dependency={self.folder}/rlibs", "-L", f"dependency={libraries}"]
        words += ["--antt-project", f"{self.folder}/rattle/logic/antt-project.json"]
        words += ["--logic-built", f"{self.folder}/logic_built"]
        # With no label: the crate declares no C functions.
        words += ["--jobs", str(jobs), "--links", f"{crate.name}="]
        if crate.is_program:
            words += ["--toolchain", f"{self.folder}/toolchain", "--backend", "llvm"]
        else:
            # Crates above load what the library states, and not its proofs, which makes them start faster.
            words += ["--statements"]
        return words + ["-o", made]

    def link_words(self, made, program):
        words = [f"{self.folder}/bin/rattle-link", "--target", "x86_64-unknown-linux-gnu"]
        words += ["--toolchain", f"{self.folder}/toolchain", "-o", program, made]
        return words + [f"{self.folder}/c/libos_c.a", f"{self.folder}/c/liblibc_c.a"]


def find_kit():
    """Returns the kit whose command rt is on the path, or None."""
    rt = shutil.which("rt")
    return Kit(os.path.dirname(os.path.dirname(os.path.realpath(rt)))) if rt else None


def verdict_of(notes):
    """Returns the last line that the prover wrote, if it says that the crate is proved, else None."""
    with open(notes, encoding="utf-8", errors="replace") as file:
        lines = file.read().splitlines()
    found = [line for line in lines if line.startswith("logic=")]
    return found[-1] if found and PROVED.fullmatch(found[-1]) else None
