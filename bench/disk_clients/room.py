"""The largest disk that the tool makes on a volume, full, and overwritten at random: each write finds room."""
import random
import time

import nbd

from .server import MEGABYTE, Volume

SEGMENTS = (32, 128)
BLOCK = 4096
MOST_IN_FLIGHT = 16


def make_largest(setting, segments):
    """A volume with the largest disk, in whole megabytes, that it takes: none that is larger is made."""
    volume = Volume(setting.program, setting.memory, "room", segments).take_share(100)
    while volume.size > 0:
        try:
            connected(volume).shutdown()
            return volume
        except nbd.Error:
            volume.size -= MEGABYTE
    raise RuntimeError("no disk is made, of any size")


def connected(volume):
    handle = nbd.NBD()
    handle.connect_command(volume.serve_words())
    return handle


class Writer:
    """A client that knows what each block holds: the number that was written last, 8 bytes over and over. A write that is refused may
    have left the old or the new."""

    def __init__(self, volume):
        self.volume = volume
        self.handle = connected(volume)
        self.blocks = volume.size // BLOCK
        self.held = [{0} for _ in range(self.blocks)]
        self.in_flight = {}
        self.written = 0
        self.refused = {}

    def write(self, first, count):
        self.written += 1
        data = nbd.Buffer.from_bytearray(bytearray(self.written.to_bytes(8, "big") * (count * BLOCK // 8)))
        blocks = range(first, first + count)
        self.in_flight[self.handle.aio_pwrite(data, first * BLOCK)] = (blocks, self.written)

    def take_answers(self):
        self.handle.poll(30_000)
        for cookie in list(self.in_flight):
            try:
                if not self.handle.aio_command_completed(cookie):
                    continue
                error = None
            except nbd.Error as fault:
                error = fault.errno
            blocks, number = self.in_flight.pop(cookie)
            for block in blocks:
                self.held[block] = self.held[block] | {number} if error else {number}
            if error:
                self.refused[error] = self.refused.get(error, 0) + 1

    def write_all(self, places):
        """Writes at each place (first block, count), at most so many at once, and not twice at once in one place."""
        for first, count in places:
            if any(first < busy.stop and busy.start < first + count for busy, _ in self.in_flight.values()):
                continue
            self.write(first, count)
            while len(self.in_flight) >= MOST_IN_FLIGHT:
                self.take_answers()
        while self.in_flight:
            self.take_answers()

    def count_wrong(self):
        """The blocks that hold something else, once connected again."""
        self.handle.flush()
        self.handle.shutdown()
        self.handle = connected(self.volume)
        wrong = 0
        for block in range(self.blocks):
            data = self.handle.pread(BLOCK, block * BLOCK)
            wrong += not any(data == number.to_bytes(8, "big") * (BLOCK // 8) for number in self.held[block])
        self.handle.shutdown()
        return wrong


def overwrites(blocks, chance, seconds):
    end = time.monotonic() + seconds
    while time.monotonic() < end:
        yield chance.randrange(blocks), 1


def try_volume(setting, segments):
    volume = make_largest(setting, segments)
    percent = volume.size * 100 / volume.size_of_room
    writer = Writer(volume)
    writer.write_all((first, min(16, writer.blocks - first)) for first in range(0, writer.blocks, 16))
    filling = dict(writer.refused)
    seconds = max(3, 120 * setting.share)
    writer.write_all(overwrites(writer.blocks, random.Random(setting.seed), seconds))
    wrong = writer.count_wrong()
    fault = volume.check()
    came = f"{writer.written:,} writes, refused {writer.refused or 'none'} ({filling or 'none'} in filling), {wrong} blocks wrong; check: {fault or 'sound'}"
    tried = f"the largest disk of {segments} segments, {volume.size >> 20} MB, {percent:.0f} % of the usable room: filled, and overwritten for {seconds:.0f} s"
    setting.table.add("room", tried, came, bool(writer.refused or wrong or fault))
    volume.remove()


def run(setting):
    for segments in SEGMENTS:
        try_volume(setting, segments)
