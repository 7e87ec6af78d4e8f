"""Builds of crates over the libraries that the gate, or ./build --proved, has proved in a checkout, so that nothing is proved twice."""
import os
import subprocess

from sources import ask_kit


class Over:
    """The libraries of a checkout, and those of the kit."""

    def __init__(self, checkout):
        self.here = checkout
        self.kit = os.path.dirname(ask_kit("doc"))

    def library(self, name):
        """The folder of a library: of the checkout, or of the kit."""
        return f"{self.here.top}/crates/{name}/out/rlib/{name}.rlib" if name in self.here.rows else f"{self.kit}/rlibs/{name}.rlib"

    def missing(self, crate):
        """Gives the libraries below a crate that are not proved in the checkout."""
        return sorted(it for it in self.here.stands_on(crate) - {crate} if not os.path.exists(self.library(it)))

    def old(self, crate):
        """Gives the libraries below a crate that lie there as an earlier check made them, and whose sources changed since. Those of the
        gate have no stamp."""
        for name in sorted(self.here.stands_on(crate) - {crate}):
            stamp = f"{self.here.top}/crates/{name}/out/rlib/stamp"
            if os.path.exists(stamp) and any(os.stat(f"{self.here.top}/{it}").st_mtime > os.stat(stamp).st_mtime for it in self.here.files_of(name)):
                yield name

    def words(self, name, root, uses, own=""):
        """What rattle is told of a crate that uses these libraries. Those that lie in the folder `own` are taken from there."""
        words = ["--crate-name", name, root]
        for use in dict.fromkeys(["core", "std", *uses]):
            lies = f"{own}/{use}.rlib" if own and os.path.exists(f"{own}/{use}.rlib") else self.library(use)
            words += ["--extern", f"{use}={lies}"]
        for folder in [f"{self.kit}/rlibs", *filter(None, [own]), *(os.path.dirname(self.library(it)) for it in self.here.rows)]:
            words += ["-L", f"dependency={folder}"]
        return [*words, "--antt-project", f"{self.kit}/rattle/logic/antt-project.json", "--logic-built", f"{self.kit}/logic_built"]

    def build(self, words, folder, to, *more):
        """Proves and builds a crate. Returns whether it is proved, its verdict and all that rattle said."""
        ran = subprocess.run([f"{self.kit}/bin/rattle", "build", *words, "--jobs", "1", *more, "-o", to],
                             cwd=folder, stdin=subprocess.DEVNULL, stdout=subprocess.PIPE, stderr=subprocess.STDOUT, text=True, check=False)
        verdict = ([line for line in ran.stdout.splitlines() if line.startswith("logic=")] or [""])[-1]
        return not ran.returncode and verdict.startswith("logic=proved "), verdict, ran.stdout
