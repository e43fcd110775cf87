"""What is proved and built stays for later runs, below folders that git ignores.

A crate has a record of what was built of it: of which sources, by which kit, the prover's last line, and what it took;
of a program also its SHA-256, in a line as dist/proved has it. The record is written when all else is in its place, and
removed before that is touched: so where a record is, what was built is whole.

Programs and notes stand in out/ at the top. A library is a folder with files .rt and .antt, and `rt` stops at such files
wherever no crate has its sources or its library. The program `auditor` has no library, so the place of one in its folder
is free: all libraries stand there, and `rt ci` leaves them as they are.
"""

import hashlib
import os
import shutil


def sum_of(path):
    with open(path, "rb") as file:
        return hashlib.sha256(file.read()).hexdigest()


def read_record(path):
    """Returns the lines of a record, each by its first word: none where there is no record."""
    try:
        with open(path, encoding="utf-8") as file:
            return dict(line.rstrip("\n").partition(" ")[::2] for line in file)
    except (OSError, UnicodeError):
        return {}


class Kept:
    def __init__(self, top):
        self.libraries = f"{top}/crates/auditor/out/rlib"
        self.programs = f"{top}/out"
        self.notes = f"{top}/out/notes"

    def made(self, crate):
        """Returns where that stands which is built of a crate."""
        if crate.is_program:
            return f"{self.programs}/{crate.name}"
        return f"{self.libraries}/{crate.name}.rlib"

    def record_path(self, crate):
        place = self.programs if crate.is_program else self.libraries
        return f"{place}/{crate.name}.proved"

    def is_built(self, crate, stamp, kit):
        """Returns whether that is there which was built of these sources by this kit, or by any where this is None."""
        record = read_record(self.record_path(crate))
        if not os.path.exists(self.made(crate)) or (kit and record.get("kit_sum") != kit.identity()):
            return False
        return record.get(crate.name) == self.made_of(crate, stamp)

    def made_of(self, crate, stamp):
        """Returns what a record says of a crate that is built: its sources, and of a program the SHA-256."""
        return f"sources {stamp}" + (f" sha256 {sum_of(self.made(crate))}" if crate.is_program else "")

    def make_room(self, crate):
        """Removes what was built of a crate, its record first."""
        os.makedirs(self.libraries, exist_ok=True)
        os.makedirs(self.notes, exist_ok=True)
        if os.path.exists(self.record_path(crate)):
            os.remove(self.record_path(crate))
        made = self.made(crate)
        if os.path.isdir(made):
            shutil.rmtree(made)
        elif os.path.exists(made):
            os.remove(made)

    def keep(self, crate, record):
        part = f"{self.record_path(crate)}.part"
        with open(part, "w", encoding="utf-8") as file:
            file.writelines(f"{word} {text}\n" for word, text in record.items())
        os.replace(part, self.record_path(crate))
