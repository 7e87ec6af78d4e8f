"""Random requests of one client, many in flight, against a model of the disk's bytes."""
import random
import time

import nbd

from .server import MEGABYTE, Volume

MOST_IN_FLIGHT = 32
SIZES = (1, 7, 511, 512, 4095, 4096, 4097, 65_535, 65_536)
KINDS = ("write",) * 9 + ("read",) * 8 + ("zero",) * 2 + ("trim", "flush")
BLOCK = 4096


class Model:
    """What the disk must show. A trim gives blocks that lie whole in it back, and they read as zeros; the rest stays."""

    def __init__(self, size):
        self.bytes = bytearray(size)

    def write(self, offset, data):
        self.bytes[offset : offset + len(data)] = data

    def trim(self, offset, length):
        first, end = -(-offset // BLOCK) * BLOCK, (offset + length) // BLOCK * BLOCK
        if first < end:
            self.bytes[first:end] = bytes(end - first)

    def differs(self, offset, data):
        """The first byte of the disk that is not as read, or None."""
        wanted = self.bytes[offset : offset + len(data)]
        if wanted == data:
            return None
        return next(offset + at for at in range(len(data)) if wanted[at] != data[at])


class Client:
    """A connection, with the requests that are in flight: of no two the ranges overlap."""

    def __init__(self, volume, model, chance, counts):
        self.handle = nbd.NBD()
        self.handle.connect_command(volume.serve_words())
        self.model, self.chance, self.counts = model, chance, counts
        self.in_flight = {}

    def pick_range(self):
        size = len(self.model.bytes)
        length = self.chance.choice((*SIZES, self.chance.randint(1, 65_536), self.chance.randint(1, 16_384)))
        # Half of them meet each other in the first megabyte.
        offset = self.chance.randrange(self.chance.choice((MEGABYTE, size)))
        return offset, min(length, size - offset)

    def overlaps(self, offset, length):
        return any(offset < at + count and at < offset + length for _, at, count, _ in self.in_flight.values())

    def send(self):
        """Sends one request; none where the range that was picked is in use."""
        kind = self.chance.choice(KINDS)
        offset, length = self.pick_range()
        if kind == "flush":
            offset, length = 0, 0
        elif self.overlaps(offset, length):
            return
        through = nbd.CMD_FLAG_FUA if self.chance.random() < 0.03 else 0
        data = None
        if kind == "write":
            data = nbd.Buffer.from_bytearray(bytearray(self.chance.randbytes(length)))
            cookie = self.handle.aio_pwrite(data, offset, flags=through)
        elif kind == "read":
            data = nbd.Buffer(length)
            cookie = self.handle.aio_pread(data, offset)
        elif kind == "zero":
            kept = nbd.CMD_FLAG_NO_HOLE if self.chance.random() < 0.5 else 0
            cookie = self.handle.aio_zero(length, offset, flags=through | kept)
        elif kind == "trim":
            cookie = self.handle.aio_trim(length, offset, flags=through)
        else:
            cookie = self.handle.aio_flush()
        self.in_flight[cookie] = (kind, offset, length, data)
        self.counts[kind] = self.counts.get(kind, 0) + 1

    def take_answers(self):
        self.handle.poll(30_000)
        done = [cookie for cookie in self.in_flight if self.handle.aio_command_completed(cookie)]
        for cookie in done:
            self.take_answer(*self.in_flight.pop(cookie))
        return len(done)

    def take_answer(self, kind, offset, length, data):
        if kind == "write":
            self.model.write(offset, data.to_bytearray())
        elif kind == "zero":
            self.model.write(offset, bytes(length))
        elif kind == "trim":
            self.model.trim(offset, length)
        elif kind == "read":
            place = self.model.differs(offset, data.to_bytearray())
            if place is not None:
                raise AssertionError(f"byte {place} differs in a read of {length} bytes at {offset}")

    def ask_until(self, end):
        answered = time.monotonic()
        while self.in_flight or time.monotonic() < end:
            for _ in range(MOST_IN_FLIGHT):
                if time.monotonic() < end and len(self.in_flight) < MOST_IN_FLIGHT:
                    self.send()
            if self.in_flight and self.take_answers():
                answered = time.monotonic()
            if time.monotonic() - answered > 60:
                raise AssertionError(f"no answer for a minute, {len(self.in_flight)} in flight")

    def compare_all(self):
        for offset in range(0, len(self.model.bytes), MEGABYTE):
            length = min(MEGABYTE, len(self.model.bytes) - offset)
            place = self.model.differs(offset, self.handle.pread(length, offset))
            if place is not None:
                raise AssertionError(f"byte {place} differs once connected again")


def run(setting):
    seconds = max(6, 300 * setting.share)
    volume = Volume(setting.program, setting.memory, "model", 64).take_share(70)
    model, chance, counts = Model(volume.size), random.Random(setting.seed), {}
    end = time.monotonic() + seconds
    connections = 0
    while time.monotonic() < end:
        client = Client(volume, model, chance, counts)
        client.compare_all()
        client.ask_until(min(end, time.monotonic() + max(2, seconds / 20)))
        client.handle.shutdown()
        del client
        connections += 1
    client = Client(volume, model, chance, counts)
    client.compare_all()
    client.handle.shutdown()
    del client
    fault = volume.check()
    told = ", ".join(f"{count:,} {kind}s" for kind, count in sorted(counts.items()))
    came = f"{told}, {connections + 1} connections: each byte as in the model; check: {fault or 'sound'}"
    setting.table.add("model", f"requests of 1 to 65,536 bytes, up to {MOST_IN_FLIGHT} in flight, {seconds:.0f} s, {volume.size >> 20} MB", came, fault is not None)
    volume.remove()
