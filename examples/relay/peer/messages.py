"""RPC messages: as much of them as requests and answers need."""

import struct

INVOKE = 0x2374DF3D
CANCEL = 0x193F1B22
CLIENT_FIN = 0x0B73429E
RESULT = 0x63AEDA4E
OLD_ERROR = 0x7AE432F5
SERVER_FIN = 0xA8DDBC46

DEST_FLAGS = 0xE352035E
DEST_ACTOR = 0x7568AABD
DEST_ACTOR_FLAGS = 0xF0A5ACF7
TL2_MARKER = 0x29324C54

RESULT_HEADER = 0x8CC84CE1
REQ_ERROR = 0xB527877D
WRAPPED_ERROR = 0x7AE432F6

TIMEOUT_BIT = 1 << 23


def invoke(number, actor, payload):
    return struct.pack("<qIq", number, DEST_ACTOR, actor) + payload


def result(number, page):
    return struct.pack("<q", number) + page


def text(data):
    """A text as the protocol writes it: length, bytes, zeros up to four."""
    head = bytes([len(data)]) if len(data) < 254 else b"\xfe" + len(data).to_bytes(3, "little")
    return head + data + bytes(-len(head + data) % 4)


def errors(number, code, words):
    """Packet type and body of every form of an error; all have one meaning."""
    rest = struct.pack("<i", code) + text(words)
    begin, header = struct.pack("<q", number), struct.pack("<II", RESULT_HEADER, 0)
    forms = [struct.pack("<I", REQ_ERROR) + rest,
             struct.pack("<I", WRAPPED_ERROR) + rest,
             struct.pack("<Iq", OLD_ERROR, number + 5) + rest]  # that number is ignored
    for form in forms:
        yield RESULT, begin + form
        yield RESULT, begin + header + form
    yield OLD_ERROR, begin + rest


def read_invoke(body):
    """Number, actor or None, and the rest behind the headers."""
    (number,) = struct.unpack_from("<q", body)
    at, actor = 8, None
    while len(body) - at >= 4:
        (magic,) = struct.unpack_from("<I", body, at)
        if magic == TL2_MARKER:
            at += 4
            break
        if magic not in (DEST_FLAGS, DEST_ACTOR, DEST_ACTOR_FLAGS):
            break
        at += 4
        if magic != DEST_FLAGS:
            (actor,) = struct.unpack_from("<q", body, at)
            at += 8
        if magic != DEST_ACTOR:
            (mask,) = struct.unpack_from("<I", body, at)
            at += 8 if mask & TIMEOUT_BIT else 4
    return number, actor, body[at:]


def _text(data):
    if data[0] == 254:
        size = int.from_bytes(data[1:4], "little")
        return data[4:4 + size]
    return data[1:1 + data[0]]


def read_result(kind, body):
    """Number, page or None, error code or None, error text."""
    (number,) = struct.unpack_from("<q", body)
    at = 8
    if kind == OLD_ERROR:
        return number, None, struct.unpack_from("<i", body, at)[0], _text(body[at + 4:])
    if body[at:at + 4] == struct.pack("<I", RESULT_HEADER):
        at += 8
    if len(body) - at >= 4:
        (magic,) = struct.unpack_from("<I", body, at)
        if magic == OLD_ERROR:
            at += 8  # the query number once more
        if magic in (OLD_ERROR, REQ_ERROR, WRAPPED_ERROR):
            (code,) = struct.unpack_from("<i", body, at + 4)
            return number, None, code, _text(body[at + 8:])
    return number, body[at:], None, None
