"""Handshakes that break the protocol. A case answers None, or what was wrong."""
import struct

from . import wire as nbd
from .wire import Gone

# A kind of reply in words, for the table.
KINDS = {nbd.ACKNOWLEDGED: "ACK", nbd.UNSUPPORTED: "ERR_UNSUP", nbd.POLICY: "ERR_POLICY", nbd.INVALID: "ERR_INVALID", nbd.UNKNOWN: "ERR_UNKNOWN", nbd.TOO_BIG: "ERR_TOO_BIG"}


def wants(told, *wanted):
    """None where one of these kinds came."""
    if told in wanted:
        return None
    return f"{KINDS.get(told, told)} in place of {' or '.join(KINDS[it] for it in wanted)}"


def hangs_up(client):
    return None if client.is_closed() else "the server did not hang up"


def no_word(client):
    """A client that connects and goes."""


def greeting_alone(client):
    """A client that reads the greeting and goes."""
    client.receive(18)


def half_flags(client):
    """Half of the client's flags and the end of the stream."""
    client.receive(18)
    client.send(b"\0\0")
    client.half_close()
    return hangs_up(client)


def strange_flags(client):
    """Client flags that nobody knows."""
    client.greet(flags=0xFFFFFFFF)
    return hangs_up(client)


def no_option(client):
    """Bytes that are no option."""
    client.greet()
    client.option(nbd.GO, b"x" * 40, mark=0x1122334455667788)
    return hangs_up(client)


def half_option(client):
    """Half an option and the end of the stream."""
    client.greet()
    client.option(nbd.GO, b"\0\0\0", length=6)
    client.half_close()
    return hangs_up(client)


def huge_option(client):
    """An option that says it has 4 GB of data."""
    client.greet()
    try:
        client.option(nbd.GO, b"x" * 1_000_000, length=0xFFFFFFFF)
        client.half_close()
    except Gone:
        return None
    return hangs_up(client)


def unknown_option(client):
    """An option that nobody knows, and then a right one."""
    client.greet()
    client.option(4711, b"0123456789")
    return wants(client.last_reply(), nbd.UNSUPPORTED) or wants(client.go(), nbd.ACKNOWLEDGED)


def start_tls(client):
    """STARTTLS, and then a right option."""
    client.greet()
    client.option(nbd.STARTTLS)
    return wants(client.last_reply(), nbd.UNSUPPORTED, nbd.POLICY) or wants(client.go(), nbd.ACKNOWLEDGED)


def structured_replies(client):
    """Structured replies are asked for, and then a right option."""
    client.greet()
    client.option(nbd.STRUCTURED_REPLY)
    return wants(client.last_reply(), nbd.UNSUPPORTED) or wants(client.go(), nbd.ACKNOWLEDGED)


def list_with_data(client):
    """A LIST with data, and then a right option."""
    client.greet()
    client.option(nbd.LIST, b"data")
    return wants(client.last_reply(), nbd.INVALID) or wants(client.go(), nbd.ACKNOWLEDGED)


def long_name(client):
    """A GO whose name is longer than its data, and then a right option."""
    client.greet()
    client.option(nbd.GO, struct.pack(">I", 4_000_000_000) + b"ab")
    return wants(client.last_reply(), nbd.INVALID) or wants(client.go(), nbd.ACKNOWLEDGED)


def empty_go(client):
    """A GO without data, and then a right option."""
    client.greet()
    client.option(nbd.GO)
    return wants(client.last_reply(), nbd.INVALID) or wants(client.go(), nbd.ACKNOWLEDGED)


def wrong_name(client):
    """An INFO and a GO for a disk that is not there, and then a right option."""
    client.greet()
    return (
        wants(client.go(b"no such disk", number=nbd.INFO), nbd.UNKNOWN)
        or wants(client.go(b"no such disk"), nbd.UNKNOWN)
        or wants(client.go(), nbd.ACKNOWLEDGED)
    )


def wrong_export(client):
    """EXPORT_NAME for a disk that is not there, which can only be hung up on."""
    client.greet()
    client.option(nbd.EXPORT_NAME, b"no such disk")
    return hangs_up(client)


def many_options(client):
    """A thousand INFOs before the GO."""
    client.greet()
    for _ in range(1000):
        if fault := wants(client.go(number=nbd.INFO), nbd.ACKNOWLEDGED):
            return fault
    return wants(client.go(), nbd.ACKNOWLEDGED)


def abort(client):
    """ABORT is acknowledged, and ends it."""
    client.greet()
    client.option(nbd.ABORT)
    return wants(client.last_reply(), nbd.ACKNOWLEDGED) or hangs_up(client)


def byte_by_byte(client):
    """A handshake and a read that are sent byte by byte."""
    client.receive(18)
    spelled = struct.pack(">I", 3) + struct.pack(">QIIIH", nbd.OPTION_MARK, nbd.GO, 6, 0, 0)
    for at in range(len(spelled)):
        client.send(spelled[at : at + 1])
    if fault := wants(client.last_reply(), nbd.ACKNOWLEDGED):
        return fault
    spelled = struct.pack(">IHHQQI", nbd.REQUEST_MARK, 0, nbd.READ, 1, 0, 4096)
    for at in range(len(spelled)):
        client.send(spelled[at : at + 1])
    told = client.reply()
    client.receive(4096)
    return None if told == (0, 1) else f"error {told[0]}"


CASES = [no_word, greeting_alone, half_flags, strange_flags, no_option, half_option, huge_option, unknown_option, start_tls, structured_replies,
         list_with_data, long_name, empty_go, wrong_name, wrong_export, many_options, abort, byte_by_byte]
