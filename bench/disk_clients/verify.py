"""fio writes at random, reads back what it wrote, and compares checksums, while the disk fills most of the volume."""
import time

from .server import Door, Volume, last_line, run_client

SEGMENTS = 128
SHARES = (50, 80, 90)


def fio_words(door, size, work, block, seed):
    """One pass of fio over the disk: each 4 KB have a checksum, which is compared soon after they were written and at the end."""
    return ["fio", "--name=verify", "--ioengine=nbd", f"--uri={door.uri}", f"--rw={work}", f"--bs={block}", f"--size={size}", "--iodepth=16",
            f"--randseed={seed}", "--verify=crc32c", "--verify_interval=4096", "--verify_backlog=512", "--verify_fatal=1", "--verify_state_save=0"]


def passes_until(end, seed):
    """Fills the disk, then writes half of it anew at random while it reads, by turns in blocks of 4 and 64 KB."""
    yield "randwrite", "64k", seed
    number = 0
    while number < 2 or time.monotonic() < end:
        number += 1
        yield "randrw", "4k" if number % 2 else "64k", seed + number
    # Connected again, each block of the disk has to be what some pass wrote.
    yield "read", "64k", seed


def verify_share(setting, percent, seconds):
    volume = Volume(setting.program, setting.memory, "verify", SEGMENTS).take_share(percent)
    count, fault = 0, None
    with Door(volume) as door:
        for work in passes_until(time.monotonic() + seconds, setting.seed):
            good, told = run_client(fio_words(door, volume.size, *work), seconds=max(300, seconds))
            count += 1
            if not good:
                fault = "; ".join(line for line in told.splitlines() if "err" in line or "verify:" in line)[:300] or last_line(told)
                break
    fault = fault or door.fault() or volume.check()
    came = fault or f"{count} passes in blocks of 4 and 64 KB, each block as written; check: sound"
    setting.table.add("verify", f"fio randrw, depth 16, crc32c, the disk {percent} % of the usable room ({volume.size >> 20} MB), {seconds:.0f} s", came, fault is not None)
    volume.remove()


def run(setting):
    for percent in SHARES:
        verify_share(setting, percent, max(4, 600 * setting.share))
