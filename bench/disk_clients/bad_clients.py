"""Clients that break the protocol, or stop in the middle. After each the next client is served, and what was flushed is there."""
import random

import nbd

from . import broken_handshakes, broken_requests
from .server import MEGABYTE, Volume
from .wire import Gone, Wire

SIZE = 64 * MEGABYTE
MARKERS = 64
BLOCK = 4096


class Markers:
    """Blocks that were flushed, at places from end to end of the disk's second half; the cases use the first half."""

    def __init__(self, volume, chance):
        step = SIZE // 2 // MARKERS
        self.volume, self.chance = volume, chance
        self.blocks = {SIZE // 2 + number * step: bytes(BLOCK) for number in range(MARKERS)}

    def look(self):
        """Connects, compares all markers and writes and flushes one anew. None, or what is wrong."""
        handle = nbd.NBD()
        handle.connect_command(self.volume.serve_words())
        lost = [offset for offset, data in self.blocks.items() if handle.pread(BLOCK, offset) != data]
        changed = self.chance.choice(list(self.blocks))
        self.blocks[changed] = self.chance.randbytes(BLOCK)
        handle.pwrite(self.blocks[changed], changed)
        handle.flush()
        handle.shutdown()
        return f"flushed blocks lost at {lost}" if lost else None


def try_case(volume, case):
    """None where the case went as it should, else what was wrong. Its name is the first line of the case's comment."""
    wire = Wire(volume)
    try:
        fault = case(wire)
    except Gone:
        fault = "the server hung up"
    except TimeoutError:
        fault = "no answer within 20 s"
    except AssertionError as error:
        fault = str(error)
    return fault or wire.hang_up()


def run(setting):
    volume = Volume(setting.program, setting.memory, "bad", 96).of_size(SIZE)
    markers = Markers(volume, random.Random(setting.seed))
    for _ in range(8):
        markers.look()
    cases = [*broken_handshakes.CASES, *broken_requests.CASES]
    right = 0
    for case in cases:
        fault = try_case(volume, case)
        try:
            next_fault = markers.look()
        except nbd.Error as error:
            next_fault = f"the next client was not served: {error.string}"
        if fault or next_fault:
            setting.table.add("bad clients", case.__doc__.rstrip("."), "; ".join(it for it in (fault, next_fault) if it), True)
        else:
            right += 1
    fault = volume.check()
    came = f"{right} answered as the protocol says, and after each the next client found what was flushed; check: {fault or 'sound'}"
    setting.table.add("bad clients", f"{len(cases)} clients that break the protocol or stop", came, fault is not None)
    volume.remove()
