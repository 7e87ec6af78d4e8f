"""Calls of the system fail under a program, one after the other: each is answered by name, and nothing is lost that was settled."""
import errno
import os
import shutil
import subprocess
import sys
import tempfile

TOP = os.path.dirname(os.path.dirname(os.path.realpath(__file__)))
sys.path[:0] = [f"{TOP}/bench", f"{TOP}/trials"]
from disk_clients.server import Volume
from disk_clients.wire import ACKNOWLEDGED, DISCONNECT, EINVAL, FLUSH, READ, WRITE, Wire
from transcript import preloading

EIO = errno.EIO
# What a run under a failing call tells, at the end of a line.
NAMED = ("the device failed", "the file failed while", "error 5)", "error 28)", "a checkpoint failed before")


class Trial:
    """A small volume with a file, the words that are tried on copies of it, and what went wrong."""

    def __init__(self, program, faults, folder):
        self.program, self.faults, self.folder, self.wrong, self.runs = program, faults, folder, [], 0
        self.image, self.copy, self.hit = f"{folder}/v.img", f"{folder}/copy.img", f"{folder}/hit"
        self.old, self.new = os.urandom(70_001), os.urandom(50_003)
        for name, data in (("old", self.old), ("new", self.new)):
            with open(f"{folder}/{name}", "wb") as file:
                file.write(data)
        self.tool("format", self.image, "--segments", "16", "--files", "8")
        for name in ("kept", "gone"):
            self.tool("put", self.image, name, f"{folder}/old")

    def tool(self, *words, environment=None):
        run = subprocess.run([self.program, *words], capture_output=True, check=False, timeout=120, env={**os.environ, **(environment or {})})
        return run.returncode, run.stdout, run.stderr.decode(errors="replace")

    def find(self, what, text):
        self.wrong.append(f"{what}: {text}")

    def get(self, name):
        status, data, _ = self.tool("get", self.copy, name)
        return data if status == 0 else None

    def look(self, what, files):
        """The copy is sound, and each file has bytes that it may have."""
        status, _, told = self.tool("check", self.copy)
        if status:
            self.find(what, f"the image is not sound: {told.strip()}")
        for name, wanted in files.items():
            if self.get(name) not in wanted:
                self.find(what, f"the file {name} has other bytes")

    def fail_each(self, words, kind, error, to, files):
        """Has each call of a kind fail in turn, and where `to` says so all that come after it."""
        for number in range(1, 100_000):
            what = f"{' '.join(words)}, where {kind} {number} fails by error {error}{' and all after it' if to else ''}"
            shutil.copyfile(self.image, self.copy)
            if os.path.exists(self.hit):
                os.remove(self.hit)
            fault = f"{kind} {number} {to or number} {error}"
            environment = preloading(self.faults, {"RZ_FAULT": fault, "RZ_HIT": self.hit})
            status, _, told = self.tool(words[0], self.copy, *words[1:], environment=environment)
            self.look(what, files)
            if not os.path.exists(self.hit):
                return number - 1
            self.runs += 1
            if status not in (0, 1, 4):
                self.find(what, f"status {status}")
            elif status and not any(name in told for name in NAMED):
                self.find(what, f"told {told.strip()!r}")
        raise AssertionError("no end")


def try_calls(trial):
    """Reads, writes and syncs fail in the middle of words that change the volume."""
    kept = {"kept": (trial.old,)}
    cases = (
        (("put", "fresh", f"{trial.folder}/new"), {**kept, "fresh": (None, trial.new)}),
        (("append", "kept", f"{trial.folder}/new"), {"kept": (trial.old, trial.old + trial.new)}),
        (("rm", "gone"), {**kept, "gone": (None, trial.old)}),
        (("clean",), kept),
    )
    for words, files in cases:
        for kind, error, to in (("read", EIO, 0), ("write", EIO, 0), ("write", errno.ENOSPC, 1 << 30), ("sync", EIO, 0)):
            trial.fail_each(words, kind, error, to, files)


def asked(wire, kind, offset, data=b"", length=0):
    """A request, and the error of its answer, with what was read."""
    wire.request(kind, offset=offset, length=length or len(data), data=data)
    fault, _ = wire.reply()
    return fault, wire.receive(length) if kind == READ and fault == 0 else b""


def try_cut(trial):
    """A file is cut while it is served: reads and writes are answered by an error, and it is not made longer again."""
    volume = Volume([trial.program], trial.folder, "cut", 16).of_size(1 << 20)
    wire = Wire(volume).begin()
    if asked(wire, WRITE, 0, b"a" * 65536)[0] or asked(wire, FLUSH, 0)[0]:
        trial.find("serve", "a write or a flush was refused")
    if asked(wire, READ, 0, length=65536) != (0, b"a" * 65536):
        trial.find("serve", "other bytes were read")
    size = os.path.getsize(volume.image) // 16
    os.truncate(volume.image, size)
    for kind, offset, more in ((READ, 0, {"length": 4096}), (WRITE, 0, {"data": b"b" * 4096}), (FLUSH, 0, {})):
        if asked(wire, kind, offset, **more)[0] == 0:
            trial.find("a file that is cut", f"request {kind} was answered as done")
    wire.request(DISCONNECT)
    wire.served.ours.close()
    if wire.served.end() in (0, None):
        trial.find("a file that is cut", "the server ended as if all were well")
    with open(volume.errors, encoding="utf-8") as file:
        told = file.read()
    if not any(name in told for name in NAMED):
        trial.find("a file that is cut", f"the server tells {told.strip()!r}")
    if os.path.getsize(volume.image) != size:
        trial.find("a file that is cut", "it was made longer again")


def try_two(trial):
    """While a program has the image, another is told so, and waits as long as it is told to."""
    volume = Volume([trial.program], trial.folder, "two", 16).of_size(1 << 20)
    wire = Wire(volume).begin()
    status, _, told = trial.tool("--wait", "0", "put", volume.image, "kept", f"{trial.folder}/old")
    if status != 4 or "another program" not in told:
        trial.find("two programs", f"status {status}: {told.strip()}")
    wire.request(DISCONNECT)
    status, _, told = trial.tool("--wait", "20", "put", volume.image, "kept", f"{trial.folder}/old")
    if status or wire.served.end() != 0:
        trial.find("two programs", f"the second did not come in its turn: {told.strip()}")


def try_all(program, faults):
    """Returns how many runs met a failing call, and what was wrong."""
    with tempfile.TemporaryDirectory() as folder:
        trial = Trial(program, faults, folder)
        try_calls(trial)
        try_cut(trial)
        try_two(trial)
        return trial.runs, trial.wrong
