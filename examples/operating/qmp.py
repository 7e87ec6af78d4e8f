"""What the recipes of this folder with qemu-storage-daemon share: servers of disks, the daemon in front of them, and its commands."""
import contextlib
import json
import os
import socket
import subprocess
import sys
import tempfile
import time

TOP = os.path.dirname(os.path.dirname(os.path.dirname(os.path.realpath(__file__))))
RUSZIVEG = os.environ.get("RUSZIVEG", f"{TOP}/rusziveg")


def at(path):
    """The address by which NBD clients name a socket."""
    return f"nbd+unix:///?socket={os.path.realpath(path)}"


def run(*words):
    return subprocess.run(words, check=True, stdout=subprocess.PIPE, text=True).stdout


def wait_for(path):
    for _ in range(100):
        if os.path.exists(path):
            return
        time.sleep(0.1)
    sys.exit(f"{path} did not appear")


@contextlib.contextmanager
def in_new_folder():
    with tempfile.TemporaryDirectory() as folder:
        os.chdir(folder)
        yield
        os.chdir("/")


@contextlib.contextmanager
def process(*words, socket):
    """A server, from the moment that its socket is there."""
    with open("server.log", "ab") as log, subprocess.Popen(words, stdin=subprocess.DEVNULL, stdout=log, stderr=log) as server:
        try:
            wait_for(socket)
            yield server
        finally:
            server.terminate()


def served(name, size):
    """The disk of the image NAME.img, on the socket NAME.sock."""
    if not os.path.exists(f"{name}.img"):
        run(RUSZIVEG, "format", f"{name}.img", "--quiet")
    words = [RUSZIVEG, "serve", f"{name}.img", "--wait", "10", "--size", str(size)]
    return process("systemd-socket-activate", "--accept", "--inetd", f"--listen={os.getcwd()}/{name}.sock", *words, socket=f"{name}.sock")


def of_disk(name):
    """The option that gives qemu-storage-daemon the disk on the socket NAME.sock, as the node NAME."""
    return f"--blockdev=driver=nbd,node-name={name},server.type=unix,server.path={name}.sock"


@contextlib.contextmanager
def daemon(node, *blockdevs):
    """qemu-storage-daemon over these nodes: it serves one of them on front.sock, and answers its commands."""
    words = ["qemu-storage-daemon", *blockdevs, "--nbd-server=addr.type=unix,addr.path=front.sock", f"--export=nbd,id=front,node-name={node},name=,writable=on",
             "--chardev=socket,id=control,path=control.sock,server=on,wait=off", "--monitor=chardev=control"]
    with process(*words, socket="control.sock"):
        with contextlib.closing(Control("control.sock")) as control:
            wait_for("front.sock")
            yield control
    for path in ("front.sock", "control.sock"):
        with contextlib.suppress(FileNotFoundError):
            os.remove(path)


class Control:
    """The commands of qemu-storage-daemon (QMP)."""

    def __init__(self, path):
        self.socket = socket.socket(socket.AF_UNIX)
        self.socket.connect(path)
        self.lines = self.socket.makefile("r", encoding="utf-8")
        self.events = []
        self.lines.readline()
        self.do("qmp_capabilities")

    def close(self):
        self.socket.close()

    def read(self):
        return json.loads(self.lines.readline())

    def do(self, command, **arguments):
        """Has a command done, and returns its answer."""
        self.socket.sendall(json.dumps({"execute": command, "arguments": arguments}).encode() + b"\n")
        while True:
            told = self.read()
            if "error" in told:
                sys.exit(f"{command}: {told['error']['desc']}")
            if "return" in told:
                return told["return"]
            self.events.append(told)

    def wait_for(self, event, job):
        """Waits for an event of a job."""
        while True:
            told = self.events.pop(0) if self.events else self.read()
            data = told["data"]
            if told["event"] == "JOB_STATUS_CHANGE" and data["id"] == job and data["status"] == "aborting":
                sys.exit(f"{job} failed: {self.do('query-jobs')}")
            if told["event"] == event and data.get("device") == job:
                return
