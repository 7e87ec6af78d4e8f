"""What clients tell of the disk, and what they read and write by their own ways of shaking hands."""
import json
import subprocess

import nbd

from .server import Door, MEGABYTE, Volume, last_line, run_client

# Where qemu-io writes: begin and length, neither of which has to do with a block.
ODD_PLACES = ((513, 3001), (4095, 2), (8191, 12290), (1_000_001, 65_537))


def try_info(table, door, size):
    good, told = run_client(["nbdinfo", "--json", door.uri])
    disk = json.loads(told)["exports"][0] if good else {}
    flags = {key: disk.get(key) for key in ("export-size", "can_flush", "can_fua", "can_trim", "can_zero", "is_read_only")}
    wanted = {"export-size": size, "can_flush": True, "can_fua": True, "can_trim": True, "can_zero": True, "is_read_only": False}
    table.add("handshake", "nbdinfo", "size and flags as wanted" if flags == wanted else f"{flags or last_line(told)}", flags != wanted)


def try_list(table, door):
    good, told = run_client(["nbdinfo", "--list", door.uri])
    names = [line.strip() for line in told.splitlines() if line.startswith("export=")]
    table.add("handshake", "nbdinfo --list", ", ".join(names) or last_line(told), not good or len(names) != 1)


def try_socat(table, volume):
    """The disk behind socat, as a user puts it there."""
    path = f"{volume.folder}/socat"
    words = " ".join(volume.serve_words())
    socat = subprocess.Popen(["socat", f"UNIX-LISTEN:{path},fork", f"EXEC:{words}"])
    try:
        good, told = run_client(["nbdinfo", "--size", f"nbd+unix:///?socket={path}"], preexec_fn=lambda: wait_for(path))
    finally:
        socat.terminate()
        socat.wait()
    right = good and told == str(volume.size)
    table.add("handshake", "nbdinfo through socat", "size as wanted" if right else last_line(told), not right)


def wait_for(path):
    subprocess.run(["timeout", "10", "sh", "-c", f"while [ ! -S {path} ]; do sleep 0.05; done"], check=False)


def try_qemu(table, door, size):
    good, told = run_client(["qemu-img", "info", "--output=json", door.uri])
    right = good and json.loads(told)["virtual-size"] == size
    table.add("handshake", "qemu-img info", "size as wanted" if right else last_line(told), not right)
    for turn in ("write", "read"):
        words = [f"{turn} -P {number + 1} {begin} {length}" for number, (begin, length) in enumerate(ODD_PLACES)]
        # Each place is between bytes that were not written.
        around = [f"read -P 0 {begin - 1} 1" for begin, _ in ODD_PLACES[2:]] if turn == "read" else []
        good, told = run_client(["qemu-io", "-f", "raw", *(f"-c{word}" for word in words + around + ["flush"]), door.uri])
        wrong = not good or "ailed" in told
        table.add("handshake", f"qemu-io {turn}s at odd places", last_line(told) if wrong else f"{len(words)} places", wrong)


def names_of(volume, *options):
    """The names that the server lists."""
    names = []
    handle = nbd.NBD()
    handle.set_opt_mode(True)
    handle.connect_command(volume.serve_words(*options))
    handle.opt_list(lambda name, _: names.append(name))
    handle.opt_abort()
    return names


def connected(volume, name, *options, flags=None):
    handle = nbd.NBD()
    handle.set_export_name(name)
    if flags is not None:
        handle.set_handshake_flags(flags)
    handle.connect_command(volume.serve_words(*options))
    return handle


def try_names(table, volume):
    listed = names_of(volume)
    for name in dict.fromkeys(["", *listed]):
        size = connected(volume, name).get_size()
        table.add("handshake", f"the name {name!r}", "is served" if size == volume.size else f"size {size}", size != volume.size)
    try:
        connected(volume, "no such disk")
        table.add("handshake", "a wrong name", "is served", True)
    except nbd.Error as error:
        table.add("handshake", "a wrong name", f"refused: {error.string}")
    # Without fixed newstyle, and without leaving out the zeros, a client has EXPORT_NAME alone.
    for flags in (0, nbd.HANDSHAKE_FLAG_FIXED_NEWSTYLE):
        size = connected(volume, listed[0], flags=flags).get_size()
        table.add("handshake", f"client flags {flags}", "is served" if size == volume.size else f"size {size}", size != volume.size)


def try_read_only(table, volume):
    handle = connected(volume, "", "--read-only")
    told = handle.is_read_only()
    handle.set_strict_mode(0)
    refused = []
    for deed in (lambda: handle.pwrite(b"x", 0), lambda: handle.zero(1, 0), lambda: handle.trim(1, 0)):
        try:
            deed()
            refused.append("done")
        except nbd.Error as error:
            refused.append(error.errno)
    read = handle.pread(1, ODD_PLACES[0][0]) == b"\x01"
    handle.shutdown()
    right = told and read and refused == ["EPERM"] * 3
    table.add("handshake", "--read-only: a write, zeroes, a trim; a read", "EPERM, EPERM, EPERM; the bytes" if right else f"told {told}, {refused}, read {read}", not right)


def try_two(table, volume):
    """Two servers of one image at once: the second one waits, and is refused."""
    first = connected(volume, "")
    second = subprocess.run(volume.serve_words(wait=0), stdin=subprocess.DEVNULL, capture_output=True, text=True, timeout=60)
    read = first.pread(1, ODD_PLACES[0][0]) == b"\x01"
    first.shutdown()
    right = second.returncode in (1, 4) and not second.stdout and read
    table.add("handshake", "a second server of the image", f"status {second.returncode}: {last_line(second.stderr)}".replace(volume.image, "IMAGE"), not right)


def try_stats(table, volume):
    """What --stats tells, of requests that are counted here."""
    path = f"{volume.folder}/stats"
    handle = connected(volume, "", "--stats", path)
    for number in range(3):
        handle.pwrite(bytes(4096), number * 4096)
    for number in range(5):
        handle.pread(1000, number)
    handle.flush()
    handle.shutdown()
    del handle
    with open(path) as file:
        told = json.load(file)
    wanted = {"writes": 3, "bytes_written": 12_288, "reads": 5, "bytes_read": 5000, "flushes": 1, "refused": 0}
    found = {key: told.get(key) for key in wanted}
    table.add("handshake", "--stats", "each request counted" if found == wanted else str(told), found != wanted)


def run(setting):
    volume = Volume(setting.program, setting.memory, "handshake", 32).of_size(16 * MEGABYTE)
    with Door(volume) as door:
        try_info(setting.table, door, volume.size)
        try_list(setting.table, door)
        try_qemu(setting.table, door, volume.size)
    if fault := door.fault():
        setting.table.add("handshake", "the servers' ends", fault, True)
    try_socat(setting.table, volume)
    try_names(setting.table, volume)
    try_read_only(setting.table, volume)
    try_two(setting.table, volume)
    try_stats(setting.table, volume)
    fault = volume.check()
    setting.table.add("handshake", "check of the image", fault or "sound", fault is not None)
    volume.remove()
