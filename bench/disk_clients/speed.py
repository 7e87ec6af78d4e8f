"""How fast the served disk is, beside nbdkit's and qemu-nbd's over a plain file of the same size in the same folder.

The same clients ask them by turns. Each turn of a server begins with a connection, which for the volume is a mount too; fio and the
flushes are timed behind it, nbdcopy with it. All have the data in memory, in the system's cache or in the server's own."""
import contextlib
import json
import os
import statistics
import subprocess
import time

import nbd

from .server import Door, MEGABYTE, Volume, run_client

SIZE = 100 * MEGABYTE
SEGMENTS = 96
TURNS = 5
WORK = (("randread", 1), ("randwrite", 1), ("randread", 16), ("randwrite", 16))


class Plain:
    """A server of a plain file, on a Unix socket. Used with `with`, as a Door."""

    def __init__(self, folder, words):
        self.path = f"{folder}/p{time.monotonic_ns()}"
        self.uri = f"nbd+unix:///?socket={self.path}"
        self.words = [word.replace("SOCKET", self.path) for word in words]

    def __enter__(self):
        self.process = subprocess.Popen(self.words)
        end = time.monotonic() + 20
        while not os.path.exists(self.path):
            if time.monotonic() > end:
                raise RuntimeError(f"{self.words[0]} does not listen")
            time.sleep(0.02)
        return self

    def settle(self):
        """Here nothing is left to be done when a client has gone."""

    def __exit__(self, *fault):
        self.process.terminate()
        self.process.wait()
        with contextlib.suppress(FileNotFoundError):
            os.remove(self.path)


def must(words):
    good, told = run_client(words, 300)
    if not good:
        raise RuntimeError(f"{' '.join(words)}: {told}")
    return told


def fio_rate(door, work, depth, seconds):
    """Requests of 4 KB a second."""
    told = must(["fio", "--name=speed", "--ioengine=nbd", f"--uri={door.uri}", f"--rw={work}", "--bs=4k", f"--iodepth={depth}", f"--size={SIZE}",
                 f"--runtime={seconds}", "--time_based", "--norandommap", "--output-format=json"])
    job = json.loads(told[told.index("{") :])["jobs"][0]
    return job["read" if work == "randread" else "write"]["iops"]


def connect_time(door):
    """Milliseconds until a client is connected. The volume is mounted meanwhile."""
    handle = nbd.NBD()
    begun = time.monotonic()
    handle.connect_uri(door.uri)
    took = (time.monotonic() - begun) * 1000
    handle.shutdown()
    return took


def flush_time(door, count):
    """Milliseconds of a write of 4 KB and a flush, one after the other: the median."""
    handle = nbd.NBD()
    handle.connect_uri(door.uri)
    times = []
    for number in range(count):
        begun = time.monotonic()
        handle.pwrite(bytes([number % 251]) * 4096, number * 37 % (SIZE // 4096) * 4096)
        handle.flush()
        times.append((time.monotonic() - begun) * 1000)
    handle.shutdown()
    return statistics.median(times)


def plain_flush_time(path, count):
    """The same without a server: a write to a file and fdatasync."""
    file = os.open(path, os.O_RDWR)
    times = []
    for number in range(count):
        begun = time.monotonic()
        os.pwrite(file, bytes([number % 251]) * 4096, number * 37 % (SIZE // 4096) * 4096)
        os.fdatasync(file)
        times.append((time.monotonic() - begun) * 1000)
    os.close(file)
    return statistics.median(times)


def copy_rate(words):
    """Megabytes a second of an nbdcopy by one connection, with connecting and a flush at the end."""
    begun = time.monotonic()
    must(["nbdcopy", "--connections=1", "--flush", *words])
    return SIZE / MEGABYTE / (time.monotonic() - begun)


def one_turn(door, source, seconds):
    """What one server does in its turn: what was measured, and the figure."""
    with door:
        yield "nbdcopy in, MB a second", copy_rate([source, door.uri])
        door.settle()
        yield "a connection, ms", connect_time(door)
        door.settle()
        yield "nbdcopy out, MB a second", copy_rate([door.uri, "null:"])
        for work, depth in WORK:
            door.settle()
            yield f"fio {work} 4 KB, depth {depth}, a second", fio_rate(door, work, depth, seconds)
        door.settle()
        yield "a write of 4 KB and a flush, ms", flush_time(door, 50)


def servers_of(volume, plain):
    """The servers that are compared, by their names: each call makes one."""
    return {
        "rusziveg serve": lambda: Door(volume),
        "nbdkit file": lambda: Plain(volume.folder, ["nbdkit", "-f", "-U", "SOCKET", "file", plain]),
        "qemu-nbd": lambda: Plain(volume.folder, ["qemu-nbd", "-t", "-f", "raw", "--cache=writeback", "-k", "SOCKET", plain]),
    }


def measure(setting, folder, servers, source, plain):
    """All turns: of each figure and server the numbers, in the order of the turns."""
    seconds = max(1, round(3 * min(1, 4 * setting.share)))
    found = {}
    for _ in range(max(1, round(TURNS * min(1, 4 * setting.share)))):
        for name, make in servers.items():
            for what, figure in one_turn(make(), source, seconds):
                found.setdefault(what, {}).setdefault(name, []).append(figure)
        found["a write of 4 KB and a flush, ms"].setdefault("a file, fdatasync", []).append(plain_flush_time(plain, 50))
    return found


def tell(setting, where, found):
    for what, by_server in found.items():
        figures = {name: statistics.median(numbers) for name, numbers in by_server.items()}
        digits = 2 if "ms" in what else 0
        told = "; ".join(f"{name} {figure:,.{digits}f}" for name, figure in figures.items())
        setting.table.add("speed", f"{what} ({where})", f"{told} (medians of {len(next(iter(by_server.values())))})")


def compare_servers(setting):
    folder = setting.disk
    volume = Volume(setting.program, folder, "speed", SEGMENTS).of_size(SIZE)
    source, plain = f"{folder}/source", f"{folder}/plain.img"
    for path in (source, plain):
        with open(path, "wb") as file:
            for _ in range(SIZE // MEGABYTE):
                file.write(os.urandom(MEGABYTE))
    tell(setting, "in the folder of a disk", measure(setting, folder, servers_of(volume, plain), source, plain))
    volume.remove()


def compare_workers(setting):
    """Depth 16 in memory: one worker against four."""
    volume = Volume(setting.program, setting.memory, "workers", SEGMENTS).of_size(SIZE)
    with Door(volume) as door:
        must(["nbdcopy", "--flush", f"{setting.disk}/source", door.uri])
    seconds = max(1, round(3 * min(1, 4 * setting.share)))
    found = {}
    for _ in range(max(1, round(TURNS * min(1, 4 * setting.share)))):
        for workers in ("1", "4"):
            with Door(volume, "--workers", workers) as door:
                for work in ("randread", "randwrite"):
                    figure = fio_rate(door, work, 16, seconds)
                    found.setdefault(f"fio {work} 4 KB, depth 16, a second", {}).setdefault(f"workers {workers}", []).append(figure)
    tell(setting, "/dev/shm", found)
    volume.remove()


def run(setting):
    compare_servers(setting)
    compare_workers(setting)
