"""Packets in one direction of a connection: numbers, checksums, padding, cipher.

Nothing here knows of sockets: bytes go in and out of plain objects, so that
the same code runs in memory and over TCP.
"""

import struct

from . import sums
from .cipher import BLOCK

FIRST_NUMBER = 0xFFFFFFFE
LONGEST = 16777215
OPENING_LIMIT = 1024
WORD = struct.pack("<I", 4)
MOST_WORDS = 3


class Fault(Exception):
    """A refusal, by the number that the rules give it; it ends the link."""

    def __init__(self, number, text):
        super().__init__(f"{number}: {text}")
        self.number = number


class Outgoing:
    def __init__(self):
        self.number = FIRST_NUMBER
        self.sum = sums.crc32
        self.padded = False
        self.encipher = None
        self.since = 0           # bytes since the first one of the Handshake
        self.trailing = 0        # words of 4 behind the last packet
        self.plain = bytearray()

    def start_padding(self):
        self.padded = True

    def packet(self, kind, body, spoil_zeros=False):
        data = struct.pack("<III", len(body) + 16, self.number, kind) + body
        data += struct.pack("<I", self.sum(data))
        self.number = (self.number + 1) & 0xFFFFFFFF
        if self.padded:
            zeros = -len(data) % 4
            data += (b"\x01" if spoil_zeros else b"\x00") * zeros
        self._put(data)
        self.trailing = 0

    def words(self, count):
        self._put(WORD * count)
        self.trailing += count

    def flush(self):
        """All bytes that wait to be sent, brought to whole blocks if padded."""
        if self.padded:
            self.words(-self.since % BLOCK // 4)
        data, self.plain = bytes(self.plain), bytearray()
        return self.encipher(data) if self.encipher else data

    def _put(self, data):
        if self.padded:
            self.since += len(data)
        self.plain += data


class Incoming:
    def __init__(self):
        self.number = FIRST_NUMBER
        self.sum = sums.crc32
        self.padded = False      # zeros after checksums
        self.opening = True      # packets must be short, and no words of 4
        self.decipher = None
        self.raw = bytearray()   # not yet deciphered
        self.plain = bytearray()
        self.seen_words = 0      # before the packet that comes next
        self.all_words = 0       # over the whole connection
        self.ciphered = 0        # enciphered bytes over the whole connection

    def start_cipher(self, decipher):
        """What has come after the Nonce is enciphered."""
        self.decipher = decipher
        self.raw, self.plain = self.plain, bytearray()
        self.ciphered = len(self.raw)
        self._decipher_blocks()

    def feed(self, data):
        if self.decipher is None:
            self.plain += data
            return
        self.ciphered += len(data)
        self.raw += data
        self._decipher_blocks()

    def _decipher_blocks(self):
        whole = len(self.raw) - len(self.raw) % BLOCK
        self.plain += self.decipher(bytes(self.raw[:whole]))
        del self.raw[:whole]

    def next(self, allowed):
        """The next packet as its type and body; None if more bytes are needed."""
        self._skip_words()
        if len(self.plain) < 4:
            return None
        (length,) = struct.unpack_from("<I", self.plain)
        self._judge_length(length)
        if len(self.plain) < 12:
            return None
        number, kind = struct.unpack_from("<II", self.plain, 4)
        if number != self.number:
            raise Fault(4, f"packet number {number}")
        if not allowed(kind):
            raise Fault(5, f"type {kind:#x} not allowed now")
        zeros = -length % 4 if self.padded else 0
        if len(self.plain) < length + zeros:
            return None
        data = bytes(self.plain[:length + zeros])
        if self.sum(data[:length - 4]) != struct.unpack_from("<I", data, length - 4)[0]:
            raise Fault(6, "checksum")
        if any(data[length:]):
            raise Fault(25, "padding byte other than zero")
        del self.plain[:length + zeros]
        self.number = (self.number + 1) & 0xFFFFFFFF
        self.seen_words = 0
        return kind, data[12:length - 4]

    def _skip_words(self):
        if self.opening or not self.padded:
            return
        while self.plain[:4] == WORD:
            self.seen_words += 1
            self.all_words += 1
            if self.seen_words > MOST_WORDS:
                raise Fault(26, "a fourth word of 4")
            del self.plain[:4]

    def _judge_length(self, length):
        if length < 16:
            raise Fault(1, f"length {length}")
        if self.opening and length >= OPENING_LIMIT:
            raise Fault(3, f"length {length} in the opening")
        if length > LONGEST:
            raise Fault(2, f"length {length}")
