"""The two checksums of packets."""

import zlib


def crc32(data):
    return zlib.crc32(data)


def _table(polynomial):
    rows = []
    for value in range(256):
        for _ in range(8):
            value = (value >> 1) ^ (polynomial if value & 1 else 0)
        rows.append(value)
    return rows


_ROWS = _table(0x82F63B78)


def crc32c(data):
    rows = _ROWS
    value = 0xFFFFFFFF
    for byte in data:
        value = rows[(value ^ byte) & 255] ^ (value >> 8)
    return value ^ 0xFFFFFFFF
