"""The relay's receiving side of a connection, by our own rules.

A mirror is fed the bytes that a connection really carried to the relay, after
all damage and cutting, with the keys that the relay must have. It foretells
which of the relay's counts grows: the number of the rule that refuses these
bytes, or that of the timer which ends a link that waits for more. Nothing in
it comes from the relay but the Nonce and the Pings that it sent.
"""

from dataclasses import dataclass

from .cipher import BLOCK, Pair
from .link import HANDSHAKE, NONCE, Link
from .stream import Fault

UNOPENED = "unopened"
BAD_POINT = "bad_points"


def fault_word(number):
    return f"fault_{number}"


# What reading noise in place of a Handshake may end in, if nobody here knows
# the keys: a rule up to the checksum's, or a wait for more bytes. What would be
# 2 is 3 already.
NOISE = frozenset({*map(fault_word, (1, 3, 4, 5, 6)), UNOPENED})


@dataclass(frozen=True)
class Verdict:
    words: frozenset = frozenset()   # of these counts exactly one grows
    dropped: bool = False            # the relay is the one to end the connection
    unread: bool = False             # what was refused stood for a ciphered Handshake
    at_nonce: bool = False           # it comes no further, so the relay sends no Handshake

    def by(self, want):
        """True if this refuses, and exactly by this number or word if one is given."""
        if want is None:
            return bool(self.words)
        word = fault_word(want) if isinstance(want, int) else want
        return self.words == {word}


class _KeysUnknown(Exception):
    """The relay has computed with a point of which nobody knows the other half."""


class _BadPoint(Exception):
    """A point of small order: the rules leave it to the card."""


class _NoNonce(Exception):
    """The relay owes its Nonce."""


class _Card:
    """In place of the relay's key pair: the same secret, from our half of it."""

    def __init__(self, link):
        self.link = link

    def shared(self, point):
        if not any(Pair().shared(point)):
            raise _BadPoint
        if _field(point) != _field(self.link.pair.point):
            raise _KeysUnknown
        return self.link.pair.shared(self.link.theirs.point)


def _field(point):
    """X25519 does not look at a point's topmost bit."""
    return point[:31] + bytes([point[31] & 0x7F])


class Mirror(Link):
    def __init__(self, link, settings, began):
        super().__init__(not link.is_client, settings, link.there, link.here)
        self.link, self.began = link, began
        self.unanswered = list(link.pinged)
        if self.is_client:
            self._write_nonce()

    def clock(self):
        return self.began

    def _write_nonce(self, encryption=0, with_cipher=False, version=0):
        self.pair = _Card(self.link)
        if self.link.theirs is None:
            if with_cipher and version == 2 and not any(Pair().shared(self.theirs.point)):
                raise _BadPoint   # the relay's card saw it before the relay's Nonce went out
            raise _NoNonce
        self.ours = self.link.theirs

    def _take_pong(self, body):
        self._judge_ping_size(body)
        if body not in self.unanswered:
            raise Fault(21, "a Pong not awaited")
        self.unanswered.remove(body)


def foretell(wire):
    """The Verdict about a connection that is over."""
    if wire.verdict is None:
        wire.verdict = _judge(wire)
    return wire.verdict


def _judge(wire):
    if not wire.sent:
        return _wait(wire, True)
    mirror = None
    try:
        mirror = Mirror(wire.link, wire.other, wire.began)
        mirror.receive(b"".join(wire.sent))
    except Fault as fault:
        at_nonce = mirror.awaited == NONCE
        unread = mirror.ciphered and mirror.awaited == HANDSHAKE
        return Verdict(frozenset({fault_word(fault.number)}), True, unread, at_nonce)
    except _KeysUnknown:
        # Less than a block cannot be read at all.
        noise = len(mirror.coming.plain) >= BLOCK
        return Verdict(NOISE, True, True) if noise else _wait(wire, False)
    except _BadPoint:
        taken = wire.opened.is_set()
        return Verdict() if taken else Verdict(frozenset({BAD_POINT}), True)
    except _NoNonce:
        return _wait(wire, True)
    if not mirror.is_open:
        return _wait(wire, mirror.awaited == NONCE)
    # An open link is ended by its Pings alone.
    return Verdict(dropped=wire.link.mute and not wire.left)


def _wait(wire, at_nonce):
    """The relay's timer ends a link that does not open, unless we end it first."""
    if wire.left:
        return Verdict(at_nonce=at_nonce)
    return Verdict(frozenset({UNOPENED}), True, at_nonce=at_nonce)
