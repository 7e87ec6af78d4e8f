"""Which crates differ from what has landed, and which of them can be checked over what is proved in this checkout."""
import os
import subprocess

from sources import TOP, Checkout

READ = ("src", "specs", "proofs")


def git(*words):
    """Returns what git prints, without the last line's end; None where it fails, or is not there."""
    try:
        ran = subprocess.run(["git", *words], cwd=TOP, stdin=subprocess.DEVNULL, capture_output=True, text=True, check=False)
    except FileNotFoundError:
        return None
    return None if ran.returncode else ran.stdout.rstrip("\n")


def landed():
    """Returns the commit from which this branch left its upstream, or the main branch of the remote; HEAD where there is neither; None where this is no checkout of git."""
    for name in ("@{upstream}", "origin/HEAD", "origin/main"):
        if commit := git("merge-base", "HEAD", name):
            return commit
    return git("rev-parse", "HEAD")


def rows_at(commit):
    """Returns the lines of crates.txt at a commit, by crate."""
    rows = {}
    for line in (git("show", f"{commit}:crates.txt") or "").splitlines():
        if row := " ".join(line.partition("#")[0].split()):
            rows[row.split()[0].rstrip(":")] = row
    return rows


def changed(here, commit):
    """Returns the crates of which a file that the prover reads, or the line in crates.txt, is another one than at a commit: those below
    others first."""
    files = (git("diff", "--name-only", "-z", commit) or "") + "\0" + (git("ls-files", "--others", "--exclude-standard", "-z") or "")
    paths = [it.split("/") for it in files.split("\0")]
    found = {it[1] for it in paths if len(it) > 3 and it[0] == "crates" and it[2] in READ and it[1] in here.rows}
    rows = rows_at(commit)
    found |= {name for name, row in here.rows.items() if rows.get(name) != row}
    return sorted(found, key=lambda it: (len(here.stands_on(it)), it))


def above(here, crates):
    """Returns the crates that stand on some of these, and are none of them."""
    return sorted(it for it in here.rows if it not in crates and not here.stands_on(it).isdisjoint(crates))


class Proved:
    """What is proved in this checkout, by the times of files: a library that is older than a file of its crate is not."""

    def __init__(self):
        self.here, self.known = Checkout(), {}

    def is_current(self, crate):
        """Whether the library of a crate, and those below it, are proved of the present files."""
        if crate not in self.known:
            library = f"{TOP}/crates/{crate}/out/rlib/{crate}.rlib"
            below = self.here.stands_on(crate) - {crate}
            self.known[crate] = os.path.exists(library) and self.is_newer(library, crate) and all(map(self.is_current, below))
        return self.known[crate]

    def is_newer(self, library, crate):
        """Whether the folder of a library was made here after the last change of its crate: its files may be those of an earlier proof."""
        return all(os.stat(f"{TOP}/{it}").st_mtime <= os.stat(library).st_ctime for it in self.here.files_of(crate))

    def lacks(self, crate, checked):
        """Gives the crates below one that are not proved of the present files, but for those that were checked in this run."""
        return sorted(it for it in self.here.stands_on(crate) - {crate, *checked} if not self.is_current(it))

    def command(self, crate):
        """The words that check a crate, and the folder for them: `rt check` where the libraries below it are those of earlier checks, which it
        takes up. Those of the gate it doesn't take; `rt ci` does, and proves the crate from nothing."""
        stamps = (f"{TOP}/crates/{it}/out/rlib/stamp" for it in self.here.stands_on(crate) - {crate})
        return (["rt", "check"], f"{TOP}/crates/{crate}") if all(map(os.path.exists, stamps)) else (["rt", "ci", crate], TOP)
