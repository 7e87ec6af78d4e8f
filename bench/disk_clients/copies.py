"""nbdcopy in and out."""
import filecmp
import random

from .server import Door, MEGABYTE, Volume, last_line, run_client

SIZE = 100 * MEGABYTE


def run(setting):
    volume = Volume(setting.program, setting.memory, "copies", 96).of_size(SIZE)
    sent, got = f"{setting.memory}/sent", f"{setting.memory}/got.bin"
    chance = random.Random(setting.seed)
    with open(sent, "wb") as file:
        for _ in range(SIZE // MEGABYTE):
            # A third are zeros, which nbdcopy sends as zeroes without bytes.
            file.write(bytes(MEGABYTE) if chance.random() < 0.33 else chance.randbytes(MEGABYTE))
    with Door(volume) as door:
        came_in, told_in = run_client(["nbdcopy", "--flush", sent, door.uri])
        came_out, told_out = run_client(["nbdcopy", door.uri, got])
    same = came_in and came_out and filecmp.cmp(sent, got, shallow=False)
    fault = door.fault() or volume.check()
    came = f"{'the same' if same else 'DIFFERS ' + last_line(told_in + told_out)}; check: {fault or 'sound'}"
    setting.table.add("copy", "nbdcopy of 100 MB in, and out once connected again", came, not same or fault is not None)
    volume.remove()
