"""The server is killed again and again while a client writes and flushes: what was flushed must be there.

A kill of a process leaves what it wrote to the system, so this shows which bytes are written in which order, and not what the file's
own medium keeps when power fails."""
import random
import struct
import time

import nbd

from .server import Served, Volume

BLOCK = 4096
MOST_IN_FLIGHT = 16
STAMP = struct.Struct(">QQ")


def block_of(number, version):
    """The bytes of a block: its number and version over and over, so that a torn block is no block at all."""
    return STAMP.pack(number, version) * (BLOCK // STAMP.size) if version else bytes(BLOCK)


class History:
    """For each block what it may hold after a kill: the last version that is safe, and those that were written since, the oldest first."""

    def __init__(self, blocks):
        self.versions = [[0] for _ in range(blocks)]
        self.answered = [0] * blocks
        self.last = 0

    def write(self, block):
        self.last += 1
        self.versions[block].append(self.last)
        return self.last

    def make_safe(self, block, version):
        """The version is safe, so no older one may come back."""
        held = self.versions[block]
        if version in held:
            del held[: held.index(version)]

    def snapshot(self):
        """The newest version of each changed block whose write is answered: what a flush that is sent now has to keep."""
        return [(block, self.answered[block]) for block, held in enumerate(self.versions) if len(held) > 1]

    def settle(self, block, found):
        """What was found after a kill. False where the block may not hold it."""
        number, version = STAMP.unpack_from(found)
        right = bytes(found) == block_of(number, version) and version in self.versions[block] and (number == block or version == 0)
        self.versions[block] = [version]
        self.answered[block] = version
        return right


class Writer:
    """A client of a server that will be killed. No two requests in flight are for one block."""

    def __init__(self, volume, history, chance, *options):
        self.served = Served(volume, *options)
        self.handle = nbd.NBD()
        self.handle.connect_socket(self.served.ours.detach())
        self.history, self.chance = history, chance
        self.in_flight = {}
        self.busy = set()
        self.flushed = 0

    def read_all(self):
        """The blocks that hold what they may not hold."""
        wrong = []
        for first in range(0, len(self.history.versions), 256):
            count = min(256, len(self.history.versions) - first)
            data = self.handle.pread(count * BLOCK, first * BLOCK)
            wrong += [first + at for at in range(count) if not self.history.settle(first + at, data[at * BLOCK : (at + 1) * BLOCK])]
        return wrong

    def send(self):
        if self.chance.random() < 0.03:
            self.in_flight[self.handle.aio_flush()] = ("flush", self.history.snapshot())
            return
        count = self.chance.choice((1, 1, 1, 2, 8, 16))
        first = self.chance.randrange(len(self.history.versions) - count)
        blocks = range(first, first + count)
        if self.busy.intersection(blocks):
            return
        written = [(block, self.history.write(block)) for block in blocks]
        data = nbd.Buffer.from_bytearray(bytearray(b"".join(block_of(*it) for it in written)))
        through = self.chance.random() < 0.02
        cookie = self.handle.aio_pwrite(data, first * BLOCK, flags=nbd.CMD_FLAG_FUA if through else 0)
        self.busy.update(blocks)
        self.in_flight[cookie] = ("through" if through else "write", written)

    def take_answers(self):
        for cookie in [it for it in self.in_flight if self.handle.aio_command_completed(it)]:
            kind, blocks = self.in_flight.pop(cookie)
            for block, version in blocks:
                if kind != "flush":
                    self.busy.discard(block)
                    self.history.answered[block] = version
                if kind != "write":
                    self.history.make_safe(block, version)
            self.flushed += kind == "flush"

    def write_until(self, end):
        while time.monotonic() < end:
            while len(self.in_flight) < MOST_IN_FLIGHT and time.monotonic() < end:
                self.send()
            self.handle.poll(100)
            self.take_answers()

    def kill(self):
        """Kills the server, and takes the answers that it had sent."""
        self.served.process.kill()
        self.served.end()
        try:
            while self.handle.aio_is_ready() or self.handle.aio_is_processing():
                self.handle.poll(100)
                self.take_answers()
        except nbd.Error:
            pass  # The connection is gone, and with it what is in flight.


def try_flush_every(setting):
    """What was written and never flushed by the client is there after a kill, once --flush-every has had its time."""
    volume = Volume(setting.program, setting.disk, "late", 16).of_size(8 << 20)
    history = History(volume.size // BLOCK)
    writer = Writer(volume, history, random.Random(setting.seed), "--flush-every", "1")
    for block in range(100):
        version = history.write(block)
        writer.handle.pwrite(block_of(block, version), block * BLOCK)
        history.make_safe(block, version)
    time.sleep(4)
    writer.kill()
    wrong = Writer(volume, history, writer.chance).read_all()
    came = f"{len(wrong)} of 100 blocks lost" if wrong else "all of them are there"
    setting.table.add("kills", "100 blocks written without a flush, --flush-every 1, killed 4 s later", came, bool(wrong))
    volume.remove()


def run(setting):
    try_flush_every(setting)
    kills = max(3, round(100 * setting.share))
    volume = Volume(setting.program, setting.disk, "kills", 32).take_share(80)
    history, chance = History(volume.size // BLOCK), random.Random(setting.seed)
    wrong, unsound, flushes = 0, 0, 0
    for _ in range(kills):
        writer = Writer(volume, history, chance)
        wrong += len(writer.read_all())
        writer.write_until(time.monotonic() + chance.uniform(0.1, 3))
        writer.kill()
        flushes += writer.flushed
        if fault := volume.check():
            unsound += 1
            print(f"kills: check: {fault}", flush=True)
    last = Writer(volume, history, chance)
    wrong += len(last.read_all())
    last.handle.shutdown()
    status = last.served.end()
    came = f"{history.last:,} blocks written, {flushes:,} flushes answered, {wrong} blocks lost or torn, {unsound} images unsound"
    setting.table.add("kills", f"{kills} kills (kill -9) while {MOST_IN_FLIGHT} writes are in flight, {volume.size >> 20} MB", came, bool(wrong or unsound or status))
    volume.remove()
