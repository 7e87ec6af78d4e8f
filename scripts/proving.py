"""Proves and builds a program of crates/ and what it stands on, and says on standard error how far that is."""
import os
import re
import subprocess
import sys
import tempfile
import threading
import time

from sources import TOP, Checkout

HERE = Checkout()
MINUTE = 60


def say(text):
    print(f"build: {text}", file=sys.stderr, flush=True)


def modules_of(crate):
    """How many modules of a crate the prover has put aside so far."""
    return sum(len(names) for _, _, names in os.walk(f"{TOP}/crates/{crate}/out/incremental"))


def under_way():
    """The crates that provers of this folder are at, as the list of processes shows."""
    found = set()
    for number in filter(str.isdigit, os.listdir("/proc")):
        try:
            with open(f"/proc/{number}/cmdline", "rb") as line:
                words = line.read().decode(errors="replace").split("\0")
            if "--crate-name" in words and os.readlink(f"/proc/{number}/cwd").startswith(f"{TOP}/crates/"):
                found.add(words[words.index("--crate-name") + 1])
        except OSError:
            continue
    return found


def jobs():
    """One proof a processor, as far as the memory goes: each takes up to 3 GB."""
    with open("/proc/meminfo", encoding="ascii") as lines:
        room = int(re.search(r"MemAvailable:\s+(\d+)", lines.read())[1]) // 3_000_000
    return max(1, min(os.cpu_count() or 1, room))


class Log:
    """What the provers have said. `rt` keeps a crate's lines in a file without a name until the crate is done: they are read there."""

    def __init__(self, path, rt):
        self.file, self.rt, self.read = open(path, "w", encoding="utf-8"), rt, {}

    def follow(self):
        folder = f"/proc/{self.rt}/fd"
        try:
            handles = [f"{folder}/{it}" for it in os.listdir(folder)]
            texts = [it for it in handles if os.readlink(it).startswith(tempfile.gettempdir()) and os.readlink(it).endswith("(deleted)")]
        except OSError:
            return
        for handle in texts:
            try:
                number = os.stat(handle).st_ino
                with open(handle, "rb") as text:
                    text.seek(self.read.get(number, 0) if self.read.get(number, 0) <= os.stat(handle).st_size else 0)
                    self.file.write(text.read().decode(errors="replace"))
                    self.read[number] = text.tell()
            except OSError:
                continue
        self.file.flush()


class Run:
    """One run of `rt` over a program and what it stands on."""

    def __init__(self, program):
        self.program = program
        self.size = {it: sum(os.path.getsize(f"{TOP}/{file}") for file in HERE.files_of(it)) for it in HERE.stands_on(program)}
        self.begun, self.done, self.start = {}, {}, time.time()

    def read(self, output):
        """Follows what `rt` says when a crate is done."""
        for line in output:
            mark, _, name = line.strip().partition(" ")
            if mark == "==" and name in self.size:
                self.done[name] = time.time()
                say(f"{len(self.done)} of {len(self.size)} crates done: {name}")

    def show_begun(self):
        for name in sorted(under_way() & self.size.keys() - self.begun.keys()):
            # The program's own sources are read before anything is proved: that is not its proof.
            if name != self.program or len(self.done) == len(self.size) - 1:
                self.begun[name] = time.time()
                say(f"begins {name}")

    def show_under_way(self):
        now = time.time()
        at = [f"{it} ({modules_of(it)} modules, {(now - self.begun[it]) / MINUTE:.0f} min)" for it in self.begun if it not in self.done]
        proved = sum(self.size[it] for it in self.done if it in self.begun)
        left = sum(size for it, size in self.size.items() if it not in self.done)
        rest = f"; about {(now - self.start) * left / proved / MINUTE:.0f} min to go" if proved else ""
        say(f"{(now - self.start) / MINUTE:.0f} min: at {', '.join(at) or 'the reading of sources'}{rest}")


def prove_all(program, folder):
    os.makedirs(f"{folder}/out", exist_ok=True)
    lanes = jobs()
    run = Run(program)
    say(f"the first run proves up to {len(run.size)} crates, {lanes} at a time, which takes hours")
    say(f"crates/{program}/out/first-run.log has what the provers say")
    words = ["rt", "all", "check", "--jobs", str(lanes)]
    with subprocess.Popen(words, cwd=folder, stdin=subprocess.DEVNULL, stdout=subprocess.PIPE, stderr=subprocess.STDOUT, text=True) as rt:
        log = Log(f"{folder}/out/first-run.log", rt.pid)
        reader = threading.Thread(target=run.read, args=(rt.stdout,))
        reader.start()
        shown = time.time()
        while reader.is_alive():
            run.show_begun()
            log.follow()
            if time.time() - shown >= MINUTE:
                shown = time.time()
                run.show_under_way()
            reader.join(2)


def prove(program):
    """Proves and builds what is missing of a program, and returns its path. Ends this program where a proof fails."""
    folder, built = f"{TOP}/crates/{program}", HERE.built(program)
    if not os.path.exists(built):
        prove_all(program, folder)
    # What is not proved yet, or has changed since, this proves, one crate at a time, or prints what is wrong with it.
    if not HERE.is_present(program):
        ran = subprocess.run(["rt", "run", "--", "--help"], cwd=folder, stdin=subprocess.DEVNULL, capture_output=True, text=True, check=False)
        # `rt` leaves this file where the program is of the present sources, and removes it before it proves anew.
        if not os.path.exists(f"{built}.stamp"):
            sys.exit(ran.stdout + ran.stderr)
        os.utime(built)
    return built
