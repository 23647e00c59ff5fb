"""Ways to damage bytes on their way, or to write padding against the rules."""

import struct

from .cipher import BLOCK
from .sums import crc32
from .wire import Last


def flip(byte, bit):
    return lambda data: data[:byte] + bytes([data[byte] ^ 1 << bit]) + data[byte + 1:]


def lose(block):
    return lambda data: data[:block * BLOCK] + data[(block + 1) * BLOCK:]


def twice(block):
    end = (block + 1) * BLOCK
    return lambda data: data[:end] + data[end - BLOCK:end] + data[end:]


def again(data):
    """A whole packet twice."""
    return data + data


def swap(block):
    at = block * BLOCK
    return lambda data: (data[:at] + data[at + BLOCK:at + 2 * BLOCK]
                         + data[at:at + BLOCK] + data[at + 2 * BLOCK:])


def break_off(kept):
    """So many bytes of a piece are a connection's last."""
    return lambda data: Last(data[:kept])


def change_nonce(byte, bit):
    """Another Nonce with a right checksum: what someone on the way can do."""

    def change(data):
        data = flip(12 + byte, bit)(data[:-4])
        return data + struct.pack("<I", crc32(data))

    return change


class Once:
    """Damages the first piece of this name, and tells whether it did."""

    def __init__(self, name, change):
        self.name, self.change, self.did = name, change, False

    def __call__(self, name, data):
        if self.did or name != self.name:
            return data
        self.did = True
        return self.change(data)


# Faults of padding, with the numbers that refuse them. A word of 4 is a length
# where there is no padding.
PADDING_FAULTS = {"zeros": 25, "words": 26, "one word": 1}


def spoil(going, fault, kind, body):
    """Writes a packet with this fault of padding before or behind it."""
    # Words of the last flush count, too.
    going.words({"zeros": 0, "words": 4 - going.trailing, "one word": 1}[fault])
    going.packet(kind, body, spoil_zeros=fault == "zeros")
