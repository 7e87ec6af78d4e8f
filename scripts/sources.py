"""What the programs of crates/ are made of, and sums of it: for ./build and the scripts of release/."""
import hashlib
import os
import shutil
import subprocess
import sys

TOP = os.path.dirname(os.path.dirname(os.path.realpath(__file__)))
RELEASE = f"{TOP}/release"
PROGRAMS = ("rusziveg", "f2fsim")


class Checkout:
    """A checkout of this repository: the folder that has crates.txt."""

    def __init__(self, top=TOP):
        self.top, self.rows = top, {}
        with open(f"{top}/crates.txt", encoding="utf-8") as lines:
            for line in lines:
                row = " ".join(line.partition("#")[0].split())
                if row:
                    self.rows[row.split()[0].rstrip(":")] = row

    def stands_on(self, program):
        """Returns the crates that a program is made of: itself and all that crates.txt has below it."""
        found, todo = set(), [program]
        while todo:
            name = todo.pop()
            if name in self.rows and name not in found:
                found.add(name)
                todo += self.rows[name].partition(":")[2].split()
        return found

    def files_of(self, crate):
        """Gives the paths, from the top, of what a proof of the crate reads."""
        for part in ("src", "specs", "proofs"):
            for folder, _, names in os.walk(f"{self.top}/crates/{crate}/{part}"):
                yield from (os.path.relpath(f"{folder}/{name}", self.top) for name in names)

    def sum_of(self, crate):
        """Returns the sum of a crate: that of the lines that `sha256sum` prints of its files, in the order of their names' bytes."""
        lines = hashlib.sha256()
        for name in sorted(self.files_of(crate), key=os.fsencode):
            lines.update(f"{sum_of_file(f'{self.top}/{name}')}  {name}\n".encode())
        return lines.hexdigest()

    def sums_of(self, program):
        """Returns a line for each crate that a program is made of, by the crate's name: its sum and its line of crates.txt."""
        return {name: f"{self.sum_of(name)}  {self.rows[name]}" for name in sorted(self.stands_on(program))}

    def built(self, program):
        """Returns the path at which the program lies, once it is proved and built."""
        return f"{self.top}/crates/{program}/out/{program}"

    def is_present(self, program):
        """Returns whether the program is built and no file that it was built from has changed since, by the times of the files. Those of
        crates.txt and of folders don't count: a change there alone makes no other program."""
        if not os.path.exists(self.built(program)):
            return False
        then = os.stat(self.built(program)).st_mtime
        files = [file for it in self.stands_on(program) for file in self.files_of(it)]
        return all(os.stat(f"{self.top}/{it}").st_mtime <= then for it in files)


class Release:
    """What the files of this folder tell of its programs."""

    def __init__(self):
        self.kit, self.rows, self.sums = None, {}, {}
        if os.path.exists(f"{RELEASE}/SOURCES"):
            with open(f"{RELEASE}/SOURCES", encoding="utf-8") as lines:
                self.kit, *rows = lines.read().splitlines()
            self.rows = {row.split()[1].rstrip(":"): row for row in rows}
            with open(f"{RELEASE}/SHA256SUMS", encoding="utf-8") as lines:
                self.sums = {name: sum for sum, name in map(str.split, lines)}

    def changed(self, here, program):
        """Returns the crates of the program that have changed since it was proved."""
        return [name for name, row in here.sums_of(program).items() if row != self.rows.get(name)]


def few(crates):
    """Returns the names of some crates as a text, the first of them where there are many."""
    more = len(crates) - 4
    return ", ".join(crates[:4]) + (f" and {more} more crate{'s' * (more > 1)}" if more > 0 else "")


def sum_of_file(path):
    with open(path, "rb") as file:
        return hashlib.sha256(file.read()).hexdigest()


def ask_kit(word):
    """Returns what the kit's command prints for a word."""
    if not shutil.which("rt"):
        sys.exit(f"{os.path.relpath(sys.argv[0])}: there is no command rt: it belongs to the Rattle kit")
    return subprocess.run(["rt", word], stdin=subprocess.DEVNULL, capture_output=True, text=True, check=True).stdout.strip()


def kit():
    """Returns the line by which the kit names itself."""
    return ask_kit("version")
