"""Requests that break the protocol, and clients that go while requests are in flight. A case answers None, or what was wrong."""
import threading

from . import wire as nbd
from .server import MEGABYTE
from .wire import Gone

SIZE = 64 * MEGABYTE
BLOCK = 4096


def answers(client, *wanted):
    """None where the next answer has one of these errors and the cookie 7, and a right read after it is answered."""
    error, cookie = client.reply()
    if error not in wanted or cookie != 7:
        return f"error {error}, cookie {cookie}, in place of {' or '.join(map(str, wanted))}"
    return reads_on(client)


def reads_on(client):
    client.request(nbd.READ, 0, BLOCK, cookie=8)
    told = client.reply()
    if told != (0, 8):
        return f"the read after it: error {told[0]}, cookie {told[1]}"
    client.receive(BLOCK)
    return None


def hangs_up(client):
    return None if client.is_closed() else "the server did not hang up"


def half_request(client):
    """Half a request and the end of the stream."""
    client.begin().send(b"\x25\x60\x95\x13\0\0\0\0")
    client.half_close()
    return hangs_up(client)


def half_write(client):
    """A write with half of its bytes, and the end of the stream."""
    client.begin().request(nbd.WRITE, 0, 65_536, bytes(30_000))
    client.half_close()
    return hangs_up(client)


def no_request(client):
    """Bytes that are no request."""
    client.begin().request(nbd.READ, 0, BLOCK, mark=0x11223344)
    return hangs_up(client)


def garbage(client):
    """A megabyte of noise in place of requests."""
    client.begin()
    try:
        client.send(bytes((at * 7 + 3) % 251 for at in range(MEGABYTE)))
    except Gone:
        return None
    return hangs_up(client)


def unknown_command(client):
    """A command that nobody knows."""
    client.begin().request(99, 0, BLOCK)
    return answers(client, nbd.EINVAL)


def unasked_command(client):
    """BLOCK_STATUS, which was not agreed on."""
    client.begin().request(nbd.STATUS, 0, BLOCK)
    return answers(client, nbd.EINVAL)


def unknown_flag(client):
    """A read with a flag that nobody knows."""
    client.begin().request(nbd.READ, 0, BLOCK, flags=0x8000)
    return answers(client, nbd.EINVAL)


def unknown_write_flag(client):
    """A write with a flag that nobody knows."""
    client.begin().request(nbd.WRITE, 0, BLOCK, bytes(BLOCK), flags=0x8000)
    return answers(client, nbd.EINVAL)


def read_past_end(client):
    """A read past the end."""
    client.begin().request(nbd.READ, SIZE - 1, 2)
    return answers(client, nbd.EINVAL)


def read_far_past_end(client):
    """A read at the highest offset there is."""
    client.begin().request(nbd.READ, 0xFFFFFFFFFFFFFFFF, 0xFFFFFFFF)
    return answers(client, nbd.EINVAL)


def huge_read(client):
    """A read of 4 GB."""
    client.begin().request(nbd.READ, 0, 0xFFFFFFFF)
    return answers(client, nbd.EINVAL)


def write_past_end(client):
    """A write past the end, whose bytes are read over."""
    client.begin().request(nbd.WRITE, SIZE - 1, 2, b"ab")
    return answers(client, nbd.ENOSPC)


def huge_write(client):
    """A write of 4 GB, of which a megabyte comes."""
    client.begin()
    try:
        client.request(nbd.WRITE, 0, 0xFFFFFFFF, bytes(MEGABYTE))
        client.half_close()
    except Gone:
        return None
    return hangs_up(client)


def trim_past_end(client):
    """A trim past the end."""
    client.begin().request(nbd.TRIM, SIZE - BLOCK, 2 * BLOCK)
    return answers(client, nbd.EINVAL, nbd.ENOSPC)


def zero_past_end(client):
    """Zeroes past the end."""
    client.begin().request(nbd.ZERO, SIZE - BLOCK, 2 * BLOCK)
    return answers(client, nbd.ENOSPC)


def zero_all(client):
    """Zeroes over half of the disk at once, more than the server takes of bytes."""
    client.begin().request(nbd.ZERO, 0, SIZE // 2)
    return answers(client, 0)


def nothing(client):
    """Requests of no bytes, also at the end."""
    client.begin()
    for kind in (nbd.READ, nbd.WRITE, nbd.TRIM, nbd.ZERO):
        for offset in (0, SIZE):
            client.request(kind, offset, 0)
            if fault := answers(client, 0, nbd.EINVAL):
                return fault
    return None


def flush_of_a_part(client):
    """A flush with an offset and a length, which are to be 0."""
    client.begin().request(nbd.FLUSH, BLOCK, BLOCK)
    return answers(client, 0, nbd.EINVAL)


def disconnect_in_flight(client):
    """A disconnect behind 64 requests: all of them are answered first."""
    client.begin()

    def send_all():
        for number in range(32):
            client.request(nbd.WRITE, number * 65_536, 65_536, bytes([number + 1]) * 65_536, cookie=number)
            client.request(nbd.READ, SIZE // 4 + number * 65_536, 65_536, cookie=100 + number)
        client.request(nbd.DISCONNECT)

    with_answers(client, send_all, 64, lambda cookie: 65_536 * (cookie >= 100))
    return hangs_up(client)


def with_answers(client, send_all, count, length):
    """Reads so many answers while another thread sends. `length` tells how many bytes an answer has behind it, by its cookie."""
    sender = threading.Thread(target=send_all)
    sender.start()
    seen = set()
    for _ in range(count):
        error, cookie = client.reply()
        if error:
            raise AssertionError(f"error {error}")
        client.receive(length(cookie))
        seen.add(cookie)
    sender.join()
    if len(seen) < count:
        raise AssertionError("a request was answered twice")


def gone_in_flight(client):
    """The end of the stream behind 64 requests, and no answer is read."""
    client.begin()
    for number in range(64):
        kind = nbd.READ if number % 2 else nbd.ZERO
        client.request(kind, number * 65_536, 65_536, cookie=number)


def deaf(client):
    """Reads of a gigabyte, and no answer is read."""
    client.begin()
    client.socket.settimeout(2)
    try:
        for number in range(32):
            client.request(nbd.READ, 0, SIZE // 2, cookie=number)
    except TimeoutError:
        pass


def pipelined(client):
    """Ten thousand reads sent at once, each answered once."""
    client.begin()
    count = 10_000

    def send_all():
        for number in range(count):
            client.request(nbd.READ, number % 4096 * BLOCK, BLOCK, cookie=number)

    with_answers(client, send_all, count, lambda _: BLOCK)


CASES = [half_request, half_write, no_request, garbage, unknown_command, unasked_command, unknown_flag, unknown_write_flag, read_past_end,
         read_far_past_end, huge_read, write_past_end, huge_write, trim_past_end, zero_past_end, zero_all, nothing, flush_of_a_part,
         disconnect_in_flight, gone_in_flight, deaf, pipelined]
