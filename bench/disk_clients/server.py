"""A volume in an image file, and the program that serves it as a disk."""
import json
import os
import shutil
import socket
import subprocess
import threading
import time

MEGABYTE = 1 << 20
TOP = os.path.realpath(f"{os.path.dirname(os.path.realpath(__file__))}/../..")


def find_program():
    """The words that run the tool: those of the variable RUSZIVEG, else the release's program, else ./rusziveg."""
    if words := os.environ.get("RUSZIVEG"):
        return words.split()
    for place in ("release/rusziveg", "rusziveg"):
        if os.access(f"{TOP}/{place}", os.X_OK):
            return [f"{TOP}/{place}"]
    raise SystemExit("clients: no program: set RUSZIVEG to the words that run the tool")


def missing_tools(programs):
    """The programs of this list that are not in the PATH."""
    path = os.environ["PATH"] + ":/usr/sbin:/sbin"
    return [name for name in programs if not shutil.which(name, path=path)]


class Volume:
    """An image file, which the tool makes, checks and serves. Sizes are in bytes."""

    def __init__(self, program, folder, name, segments):
        self.program = program
        self.folder = folder
        self.image = f"{folder}/{name}.img"
        self.errors = f"{folder}/{name}.errors"
        self.size = 0
        self.size_of_room = 0
        if os.path.exists(self.image):
            os.remove(self.image)
        self.run("format", self.image, "--segments", str(segments))

    def run(self, *words):
        done = subprocess.run([*self.program, *words], capture_output=True, text=True, timeout=120)
        if done.returncode:
            raise RuntimeError(f"{' '.join(words)}: status {done.returncode}: {(done.stdout + done.stderr).strip()}")
        return done.stdout

    def usable_bytes(self):
        return json.loads(self.run("df", "--json", self.image))["usable_bytes"]

    def take_share(self, percent):
        """Has the disk take so much of the usable room, in whole megabytes."""
        self.size_of_room = self.usable_bytes()
        self.size = self.size_of_room * percent // 100 // MEGABYTE * MEGABYTE
        return self

    def of_size(self, size):
        self.size = size
        return self

    def check(self):
        """None where the image is sound, else what `check` tells."""
        words = [*self.program, "--wait", "30", "check", self.image]
        done = subprocess.run(words, capture_output=True, text=True, timeout=120)
        return None if done.returncode == 0 else (done.stdout + done.stderr).strip() or f"status {done.returncode}"

    def serve_words(self, *options, wait=30):
        """The words that serve the disk over standard input and output. It waits so many seconds for an image that another serves."""
        return [*self.program, "--wait", str(wait), "serve", self.image, "--size", str(self.size), *options]

    def remove(self):
        os.remove(self.image)


class Served:
    """A process that serves one end of a pair of sockets. `ours` is the other end."""

    def __init__(self, volume, *options):
        self.ours, theirs = socket.socketpair()
        with open(volume.errors, "ab") as errors:
            words = volume.serve_words(*options)
            self.process = subprocess.Popen(words, stdin=theirs, stdout=theirs, stderr=errors)
        theirs.close()

    def end(self, seconds=60):
        """Waits for the process, and answers its status, or None where it had to be killed."""
        try:
            return self.process.wait(seconds)
        except subprocess.TimeoutExpired:
            self.process.kill()
            self.process.wait()
            return None


class Door:
    """A Unix socket where each connection gets a server of its own, as inetd gives one. Used with `with`."""

    def __init__(self, volume, *options):
        self.words = volume.serve_words(*options)
        self.errors = volume.errors
        self.path = f"{volume.folder}/s{time.monotonic_ns()}"
        self.uri = f"nbd+unix:///?socket={self.path}"
        self.processes = []
        self.endings = []

    def __enter__(self):
        self.listener = socket.socket(socket.AF_UNIX)
        self.listener.bind(self.path)
        self.listener.listen(16)
        self.thread = threading.Thread(target=self.accept_all, daemon=True)
        self.thread.start()
        return self

    def accept_all(self):
        while True:
            try:
                connection, _ = self.listener.accept()
            except OSError:
                return
            with connection, open(self.errors, "ab") as errors:
                self.processes.append(subprocess.Popen(self.words, stdin=connection, stdout=connection, stderr=errors))

    def settle(self):
        """Waits until each server that was started has closed its volume and ended."""
        while self.processes:
            process = self.processes.pop(0)
            try:
                self.endings.append(process.wait(60))
            except subprocess.TimeoutExpired:
                process.kill()
                process.wait()
                self.endings.append(None)

    def __exit__(self, *fault):
        self.listener.shutdown(socket.SHUT_RDWR)
        self.listener.close()
        self.thread.join()
        self.settle()
        os.remove(self.path)

    def fault(self):
        """None where each server ended with status 0, else how they ended."""
        return f"servers ended with {self.endings}" if any(ending != 0 for ending in self.endings) else None


def run_client(words, seconds=120, **more):
    """Runs a client to its end: whether it answered 0, and what it printed on both streams."""
    try:
        done = subprocess.run(words, stdout=subprocess.PIPE, stderr=subprocess.STDOUT, timeout=seconds, **more)
    except subprocess.TimeoutExpired:
        return False, f"no end within {seconds} s"
    return done.returncode == 0, done.stdout.decode(errors="replace").strip()


def last_line(text):
    """The last line of what a client printed, for a cell of the table."""
    lines = [line.strip() for line in text.splitlines() if line.strip()]
    return lines[-1][:160] if lines else "nothing printed"
