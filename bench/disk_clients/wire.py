"""A client that spells the NBD protocol's bytes by hand, so that it can spell wrong ones.

The numbers are those of https://github.com/NetworkBlockDevice/nbd/blob/master/doc/proto.md."""
import socket
import struct

from .server import Served

OPTION_MARK = 0x49484156454F5054
OPTION_REPLY_MARK = 0x3E889045565A9
REQUEST_MARK = 0x25609513
REPLY_MARK = 0x67446698
GREETING = b"NBDMAGIC" + struct.pack(">Q", OPTION_MARK)

EXPORT_NAME, ABORT, LIST, STARTTLS, INFO, GO, STRUCTURED_REPLY = 1, 2, 3, 5, 6, 7, 8
READ, WRITE, DISCONNECT, FLUSH, TRIM, CACHE, ZERO, STATUS = 0, 1, 2, 3, 4, 5, 6, 7
ACKNOWLEDGED, IS_SERVER, IS_INFO = 1, 2, 3
UNSUPPORTED, POLICY, INVALID, UNKNOWN, TOO_BIG = (1 << 31 | number for number in (1, 2, 3, 6, 9))
EINVAL, ENOSPC = 22, 28


class Gone(Exception):
    """The server closed the connection."""


class Wire:
    """A connection to a server of its own. A wait of more than `seconds` raises TimeoutError."""

    def __init__(self, volume, *options, seconds=20):
        self.served = Served(volume, *options)
        self.socket = self.served.ours
        self.socket.settimeout(seconds)

    def send(self, data):
        try:
            self.socket.sendall(data)
        except (BrokenPipeError, ConnectionResetError) as error:
            raise Gone from error

    def receive(self, count):
        data = bytearray()
        while len(data) < count:
            try:
                more = self.socket.recv(min(count - len(data), 1 << 20))
            except ConnectionResetError as error:
                raise Gone from error
            if not more:
                raise Gone
            data += more
        return bytes(data)

    def is_closed(self):
        """Whether the server closes the connection. What it still sends is read over."""
        try:
            while self.socket.recv(1 << 20):
                pass
            return True
        except ConnectionResetError:
            return True
        except TimeoutError:
            return False

    def greet(self, flags=3):
        """Reads the greeting, and answers the client's flags (3: fixed newstyle, no zeros)."""
        if self.receive(18)[:16] != GREETING:
            raise AssertionError("another greeting")
        self.send(struct.pack(">I", flags))

    def option(self, number, data=b"", length=None, mark=OPTION_MARK):
        self.send(struct.pack(">QII", mark, number, len(data) if length is None else length) + data)

    def option_reply(self):
        """The kind and the data of an answer to an option."""
        mark, _, kind, length = struct.unpack(">QIII", self.receive(20))
        if mark != OPTION_REPLY_MARK:
            raise AssertionError("an option's answer has another mark")
        return kind, self.receive(length)

    def last_reply(self):
        """The kind of the answer that ends those to an option."""
        while True:
            kind, _ = self.option_reply()
            if kind not in (IS_SERVER, IS_INFO):
                return kind

    def go(self, name=b"", number=GO):
        """Asks to be served, and answers the kind of the last reply."""
        self.option(number, struct.pack(">I", len(name)) + name + struct.pack(">H", 0))
        return self.last_reply()

    def begin(self):
        """From the greeting to being served."""
        self.greet()
        if self.go() != ACKNOWLEDGED:
            raise AssertionError("the disk is refused")
        return self

    def request(self, kind, offset=0, length=0, data=b"", cookie=7, flags=0, mark=REQUEST_MARK):
        self.send(struct.pack(">IHHQQI", mark, flags, kind, cookie, offset, length) + data)

    def reply(self):
        """The error and the cookie of an answer."""
        mark, error, cookie = struct.unpack(">IIQ", self.receive(16))
        if mark != REPLY_MARK:
            raise AssertionError("an answer has another mark")
        return error, cookie

    def hang_up(self, seconds=30):
        """Closes, and answers None where the server ends by itself, and not by a signal, else what happened."""
        self.socket.close()
        status = self.served.end(seconds)
        if status is None:
            return f"the server had not ended after {seconds} s"
        return f"the server ended by signal {-status}" if status < 0 else None

    def half_close(self):
        self.socket.shutdown(socket.SHUT_WR)
