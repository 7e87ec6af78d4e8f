"""An ext4 file system on the disk."""
import filecmp
import os
import random
import subprocess
import time

from .server import Door, MEGABYTE, Volume, last_line, run_client

FILES = 60


def make_files(folder, chance):
    """Files of 0 bytes to 1 MB, in folders, and the script by which debugfs writes them."""
    lines = []
    for number in range(FILES):
        part = f"folder{number % 5}"
        os.makedirs(f"{folder}/{part}", exist_ok=True)
        if number < 5:
            lines.append(f"mkdir {part}")
        name = f"{part}/file{number}"
        with open(f"{folder}/{name}", "wb") as file:
            file.write(chance.randbytes(chance.choice((0, 1, 4095, 5000, chance.randrange(MEGABYTE)))))
        lines.append(f"write {folder}/{name} {name}")
    return "\n".join(lines) + "\n"


def must(words, seconds=300, **more):
    good, told = run_client(words, seconds, **more)
    if not good:
        raise RuntimeError(f"{words[0]}: {last_line(told)}")
    return told


def same_files(one, other):
    found = filecmp.dircmp(one, other, ignore=["lost+found"])
    if found.left_only or found.right_only or found.funny_files:
        return False
    _, differ, unread = filecmp.cmpfiles(one, other, found.common_files, shallow=False)
    return not differ and not unread and all(same_files(f"{one}/{name}", f"{other}/{name}") for name in found.common_dirs)


class Mounted:
    """The disk as a file, by nbdfuse. Used with `with`."""

    def __init__(self, volume, door):
        self.place = f"{volume.folder}/fuse"
        os.makedirs(self.place, exist_ok=True)
        self.file = f"{self.place}/nbd"
        self.process = subprocess.Popen(["nbdfuse", self.place, "--unix", door.path])

    def __enter__(self):
        end = time.monotonic() + 30
        while not os.path.exists(self.file):
            if self.process.poll() is not None or time.monotonic() > end:
                raise RuntimeError("nbdfuse mounted nothing")
            time.sleep(0.05)
        return self.file

    def __exit__(self, *fault):
        subprocess.run(["fusermount3", "-u", self.place], check=False)
        self.process.wait(60)


class Copied:
    """The disk as a copy of it, which goes back at the end: where there is no FUSE."""

    def __init__(self, volume, door):
        self.file, self.uri = f"{volume.folder}/copied", door.uri

    def __enter__(self):
        must(["nbdcopy", self.uri, self.file])
        return self.file

    def __exit__(self, *fault):
        if fault == (None, None, None):
            must(["nbdcopy", "--flush", self.file, self.uri])
        os.remove(self.file)


def has_fuse():
    return os.access("/dev/fuse", os.W_OK) and subprocess.run(["which", "nbdfuse", "fusermount3"], stdout=subprocess.DEVNULL, check=False).returncode == 0


def run(setting):
    way = Mounted if has_fuse() else Copied
    path = os.environ["PATH"] + ":/usr/sbin:/sbin"
    more = {"env": {**os.environ, "PATH": path}}
    volume = Volume(setting.program, setting.memory, "files", 96).of_size(128 * MEGABYTE)
    taken, got = f"{setting.memory}/taken", f"{setting.memory}/got"
    os.mkdir(got)
    script = make_files(taken, random.Random(setting.seed))
    with Door(volume) as door:
        with way(volume, door) as file:
            must(["mkfs.ext4", "-q", "-F", file], **more)
            told = must(["debugfs", "-w", "-f", "/dev/stdin", file], input=script.encode(), **more)
        # Connected anew, so that the volume is mounted again.
        with way(volume, door) as file:
            clean, told = run_client(["e2fsck", "-fn", file], **more)
            must(["debugfs", "-R", f"rdump / {got}", file], **more)
    same = same_files(taken, got)
    fault = door.fault() or volume.check()
    came = f"e2fsck -fn: {'clean' if clean else last_line(told)}; files {'the same' if same else 'DIFFER'}; check: {fault or 'sound'}"
    tried = f"mkfs.ext4 and {FILES} files by debugfs, by {'nbdfuse' if way is Mounted else 'nbdcopy'}, and read once connected again"
    setting.table.add("files", tried, came, not clean or not same or fault is not None)
    volume.remove()
