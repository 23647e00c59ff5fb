"""One connection's conversation: the opening, then packets, Pings and Pongs.

A link is fed the bytes that came and leaves the bytes to send in `outbox`, in
pieces named by what they hold. It is honest unless its Twist says otherwise:
a Twist names the values that this side writes in place of the right ones.
"""

import os
import struct
import time
from collections import deque
from dataclasses import dataclass, field

from . import keys, sums
from .cipher import Pair, decipherer, encipherer
from .stream import Fault, Incoming, Outgoing

NONCE = 0x7ACB87AA
HANDSHAKE = 0x7682EEF5
PING = 0x5730A2DF
PONG = 0x8430EAA7

USE_CRC32C = 0x800
OFFERS = {"clear": 0, "only": 1, "either": 2}
MODES = tuple(OFFERS)
VERSIONS = (0, 1, 2)
OWN_VERSION = 2


@dataclass
class Settings:
    mode: str = "clear"        # clear, only or either
    key: bytes = b""
    version: int = OWN_VERSION
    lowest: int = 0
    crc32c: bool = True        # offered as client, allowed as server
    padded: bool = False       # on clear links, by hand


@dataclass(repr=False)
class Twist:
    encryption: int = None
    version: int = None
    key_id: bytes = None
    point: bytes = None
    time_shift: int = 0
    nonce_size: int = None     # the Nonce's body cut or grown to so many bytes
    handshake_size: int = None
    flags: int = 0             # more bits in the Handshake's flags
    out_key: bytes = None      # the key by which this side enciphers
    vector_mask: bytes = None  # laid over this side's starting vector
    early_ping: int = None     # a server's Ping straight behind its Handshake
    early_word: bool = False   # a word of 4 before the Handshake
    deaf: bool = False         # a server that answers even a Handshake it cannot read

    def __repr__(self):
        said = [f"{name}={value!r}" for name, value in vars(self).items() if value]
        return f"Twist({', '.join(said)})"


@dataclass
class Nonce:
    key_id: bytes
    encryption: int
    version: int
    flags: int
    time: int
    random: bytes
    point: bytes
    size: int = field(default=60)

    def write(self):
        head = struct.pack("<BBHI", self.encryption, self.version, self.flags, self.time)
        return self.key_id + head + self.random + self.point


def read_nonce(body):
    if len(body) < 28:
        raise Fault(7, f"Nonce of {len(body)} bytes")
    encryption, version, flags, when = struct.unpack_from("<BBHI", body, 4)
    if version >= 2 and len(body) < 60:
        raise Fault(7, f"Nonce of version {version} with {len(body)} bytes")
    point = body[28:60].ljust(32, b"\0")
    return Nonce(body[:4], encryption, version, flags, when, body[12:28], point, len(body))


def server_choice(mode, asked):
    """What a server so set answers to a client's encryption byte."""
    if mode == "clear":
        if asked == 1:
            raise Fault(9, "the client wants a cipher")
        return 0
    if mode == "only":
        if asked == 0:
            raise Fault(9, "the client wants no cipher")
        return 1
    return 0 if asked == 0 else 1


def client_takes(offer, answer):
    return answer in (0, 1) if offer == 2 else answer == offer


def _resize(body, size):
    if size is None:
        return body
    # Bytes beyond the known fields must be ignored, so they are not zeros.
    return body[:size] + b"\xa5" * (size - len(body))


class Link:
    def __init__(self, is_client, settings, here, there, twist=None):
        self.is_client = is_client
        self.settings = settings
        self.here, self.there = here, there     # IP as a number, port
        self.twist = twist or Twist()
        self.coming, self.going = Incoming(), Outgoing()
        self.outbox = deque()
        self.awaited = NONCE
        self.ours = self.theirs = None          # Nonces
        self.pair = None
        self.ciphered = False
        self.version = None
        self.crc32c = False
        self.mute = False                       # answers no Ping
        self.pinged = []                        # bodies of the Pings that came
        self.pongs = 0                          # those that came
        self.ping_sent = None
        self.lost = False                       # deaf, and what comes is noise

    @property
    def is_open(self):
        return self.awaited is None

    @property
    def is_twisted(self):
        return self.twist != Twist()

    def clock(self):
        return int(time.time())

    # ---- what this side sends

    def begin(self):
        """A client speaks first."""
        offer = OFFERS[self.settings.mode]
        self._write_nonce(offer, offer != 0, self.settings.version)

    def send(self, kind, body, name="packet"):
        self.going.packet(kind, body)
        self.push(name)

    def push(self, name):
        self.outbox.append((name, self.going.flush()))

    def ping(self, number):
        self.ping_sent = number
        self.send(PING, struct.pack("<Q", number), "ping")

    def _write_nonce(self, encryption, with_cipher, version):
        twist = self.twist
        key_id, point = bytes(4), bytes(32)
        if with_cipher:
            self.pair = Pair()
            key_id, point = self.settings.key[:4], self.pair.point
        self.ours = Nonce(
            key_id if twist.key_id is None else twist.key_id,
            encryption if twist.encryption is None else twist.encryption,
            version if twist.version is None else twist.version,
            0,
            self.clock() + twist.time_shift,
            os.urandom(16),
            point if twist.point is None else twist.point,
        )
        self.going.packet(NONCE, _resize(self.ours.write(), twist.nonce_size))
        self.push("nonce")

    def _write_handshake(self, flags):
        pids = struct.pack("<IHHI", *self.here, os.getpid() & 0xFFFF, 0)
        pids += struct.pack("<IHHI", *self.there, 0, 0)
        body = struct.pack("<I", flags | self.twist.flags) + pids
        if self.twist.early_word:
            self.going.words(1)
        self.going.packet(HANDSHAKE, _resize(body, self.twist.handshake_size))

    # ---- what comes in

    def receive(self, data):
        """Takes bytes; gives back the packets that are not the link's own."""
        try:
            return [] if self.lost else self._receive(data)
        except Fault:
            if not self.twist.deaf:
                raise
            self.lost = True
            if self.awaited == HANDSHAKE:
                self._write_handshake(0)
                self.push("handshake")
            return []

    def _receive(self, data):
        self.coming.feed(data)
        packets = []
        while True:
            packet = self.coming.next(self._allowed)
            if packet is None:
                return packets
            if not self._own(*packet):
                packets.append(packet)

    def _allowed(self, kind):
        if self.awaited is not None:
            return kind == self.awaited
        return kind not in (NONCE, HANDSHAKE)

    def _own(self, kind, body):
        if kind == NONCE:
            self._take_nonce(read_nonce(body))
        elif kind == HANDSHAKE:
            self._take_handshake(body)
        elif kind == PING:
            self._take_ping(body)
        elif kind == PONG:
            self._take_pong(body)
        else:
            return False
        return True

    def _take_nonce(self, nonce):
        self.theirs = nonce
        if abs(nonce.time - self.clock()) > 30:
            raise Fault(8, "clocks")
        if nonce.version < self.settings.lowest:
            raise Fault(24, f"version {nonce.version}")
        if self.is_client:
            self._judge_answer(nonce)
        else:
            self._answer(nonce)
        self._agree()
        if self.is_client:
            self._write_handshake(USE_CRC32C if self.settings.crc32c else 0)
            self.push("handshake")
        self.awaited = HANDSHAKE

    def _judge_answer(self, nonce):
        if not client_takes(min(self.ours.encryption, 2), nonce.encryption):
            raise Fault(9, f"encryption {nonce.encryption}")
        self.ciphered = nonce.encryption == 1
        self._judge_key_id(nonce)
        if nonce.version > self.ours.version:
            raise Fault(10, f"version {nonce.version}")
        self.version = nonce.version

    def _answer(self, nonce):
        choice = self.twist.encryption
        if choice is None:
            choice = server_choice(self.settings.mode, nonce.encryption)
        self.ciphered = choice == 1
        if not self.is_twisted:
            # A dishonest server leaves it to the other side to refuse.
            self._judge_key_id(nonce)
        version = min(nonce.version, self.settings.version)
        self._write_nonce(choice, self.ciphered, version)
        self.version = self.ours.version

    def _judge_key_id(self, nonce):
        if self.ciphered and nonce.key_id != self.settings.key[:4]:
            raise Fault(9, "another KeyID")

    def _agree(self):
        """Both Nonces are known: what holds from the Handshakes on."""
        if self.ciphered:
            self._start_ciphers()
        if self.ciphered or self.settings.padded:
            self.going.start_padding()
            self.coming.padded = True

    def _start_ciphers(self):
        server, client = self.theirs, self.ours
        server_address, client_address = self.there, self.here
        out, back = keys.TO_SERVER, keys.TO_CLIENT
        if not self.is_client:
            server, client = client, server
            server_address, client_address = client_address, server_address
            out, back = back, out
        shared = self.pair.shared(self.theirs.point) if self.version == 2 else b""
        if self.version == 2 and self.twist.point is not None:
            shared = bytes(32)   # the other side's, for a point of small order
        facts = keys.Facts(server.random, client.random, server.time, client.time,
                           server_address, client_address, shared)
        key = self.settings.key
        self.coming.start_cipher(decipherer(*keys.derive(
            keys.init_message(self.version, back, facts, key))))
        aes, vector = keys.derive(
            keys.init_message(self.version, out, facts, self.twist.out_key or key))
        if self.twist.vector_mask:
            vector = bytes(a ^ b for a, b in zip(vector, self.twist.vector_mask))
        self.going.encipher = encipherer(aes, vector)

    def _take_handshake(self, body):
        if len(body) < 28:
            raise Fault(7, f"Handshake of {len(body)} bytes")
        offered = struct.unpack_from("<I", body)[0] & USE_CRC32C != 0
        if self.is_client:
            if offered and not self.settings.crc32c:
                raise Fault(10, "CRC-32C though not offered")
            self.crc32c = offered
        else:
            self.crc32c = offered and self.settings.crc32c
            self._write_handshake(USE_CRC32C if self.crc32c else 0)
        if self.crc32c:
            self.coming.sum = self.going.sum = sums.crc32c
        if not self.is_client:
            if self.twist.early_ping is not None:
                self.ping_sent = self.twist.early_ping
                self.going.packet(PING, struct.pack("<Q", self.ping_sent))
            self.push("handshake")
        self.coming.opening = False
        self.awaited = None

    def _take_ping(self, body):
        self._judge_ping_size(body)
        self.pinged.append(body)
        if not self.mute:
            self.send(PONG, body, "pong")

    def _take_pong(self, body):
        self._judge_ping_size(body)
        if self.ping_sent is None or body != struct.pack("<Q", self.ping_sent):
            raise Fault(21, "a Pong not awaited")
        self.ping_sent = None
        self.pongs += 1

    @staticmethod
    def _judge_ping_size(body):
        if len(body) != 8:
            raise Fault(17, f"Ping or Pong of {len(body)} bytes")
