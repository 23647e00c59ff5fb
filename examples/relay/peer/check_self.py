"""The peer against the document's vectors and against itself."""

import asyncio
import itertools
import random
from types import SimpleNamespace

from . import keys, messages, sums
from .book import Book, noise
from .cipher import Pair
from .damage import Once, change_nonce, flip
from .front import Front
from .ground import KEY
from .link import MODES, OFFERS, VERSIONS, Link, Settings, Twist, server_choice
from .mirror import UNOPENED, fault_word, foretell
from .publisher import Publisher, Script
from .report import Check
from .stream import Fault
from .wire import Bytewise, CutAt

# Version and direction to AES key and vector, as the document prints them.
PRINTED = {
    (0, keys.TO_SERVER): ("28b5a5313b3ea9e2f6f0293e0748b2f743b0e112779faa77a3ee9d71ae70dda6",
                          "80387128489168b336d998762bce6fef"),
    (0, keys.TO_CLIENT): ("e3cf8557ea4ad963c3b637d466388403841d2e989a1fc684ac691c44b05ac9bb",
                          "1efd4c8aa43a87d1ea5488a1bc669269"),
    (1, keys.TO_SERVER): ("373374076f52d8f6bb5b063f17b9eb9fb4194e429cf02e207300add4c28a8e57",
                          "cea8f827019de36741f73e5948aea5be"),
    (1, keys.TO_CLIENT): ("3ce0c95487d99754688e0508a036c8c02727f297d0311db6273d69c07ac7a0d2",
                          "34411262ac3e172bc1a2d086b4f1ecb5"),
    (2, keys.TO_SERVER): ("c513a88366728c719ffe885d943b0faa701ff7f0b061311b9af5fa5a0ec830ef",
                          "bbaf9484282c1d021c21d9da05e822c0"),
    (2, keys.TO_CLIENT): ("987d9938b0ea97bae1604e78d47131a5b0dc426054d5f9423d14f867480dce1d",
                          "cf55ffd9615629f9cc7fc6b14d9a48f8"),
}
CLIENT_POINT = "4b7fe2cd2aa7067de1d46b7aeced9ca5fc748748c324855d1f83a9772da45d49"
SERVER_POINT = "c0d54fe02bae5a4336105769a99a128db969ac8c034334ec201f6b6016635a56"
SHARED = "4541d9fd5263298736d6ecdfa8c5834e12b54e2ad3bb95a50d2085dd4075f458"


def vectors():
    check = Check("the peer gives the document's vectors")
    check.that(sums.crc32(b"123456789") == 0xCBF43926, "CRC-32")
    check.that(sums.crc32c(b"123456789") == 0xE3069283, "CRC-32C")
    client = Pair(b"012344abcdefghijklmnopqrstuvwxyz")
    server = Pair(b"567899ABCDEFGHIJKLMNOPQRSTUVWXYZ")
    check.that(client.point.hex() == CLIENT_POINT, "the client's point")
    check.that(server.point.hex() == SERVER_POINT, "the server's point")
    check.that(client.shared(server.point).hex() == SHARED, "shared secret, client")
    check.that(server.shared(client.point).hex() == SHARED, "shared secret, server")
    facts = keys.Facts(b"ABCDEFGHIJKLMNOP", b"abcdefghijklmnop", 0x0D0E0F10, 0x01020304,
                       (0x0D0E0F10, 0x1112), (0x05060708, 0x090A), bytes.fromhex(SHARED))
    for (version, direction), (key, vector) in PRINTED.items():
        message = keys.init_message(version, direction, facts, b"hren")
        got = keys.derive(message)
        check.that(got[0].hex() == key, f"key of version {version}, {direction}")
        check.that(got[1].hex() == vector, f"vector of version {version}, {direction}")
    return check


HERE, THERE = (0x7F000001, 40000), (0x7F000002, 50000)


def expected(client_mode, server_mode):
    """Clear, ciphered or None, by the tables of the rules."""
    offer = OFFERS[client_mode]
    try:
        answer = server_choice(server_mode, offer)
    except Fault:
        return None
    if offer != 2 and answer != offer:
        return None
    return "ciphered" if answer else "clear"


def in_pieces(data, cutting):
    while data:
        size = cutting()
        yield data[:size]
        data = data[size:]


def converse(client, server, cutting, rounds=3):
    """Opening and some exchanges; True if every packet came through unchanged."""
    client.begin()
    sides = {True: client, False: server}

    def carry():
        got = {True: [], False: []}
        while client.outbox or server.outbox:
            for source in (True, False):
                while sides[source].outbox:
                    _, data = sides[source].outbox.popleft()
                    for piece in in_pieces(data, cutting):
                        got[not source] += sides[not source].receive(piece)
        return got

    carry()
    if not (client.is_open and server.is_open):
        return False
    for turn in range(rounds):
        there = noise(random.randrange(120))
        back = noise(random.randrange(120))
        client.send(messages.INVOKE, there)
        if turn == 1:
            server.ping(7)
        server.send(messages.RESULT, back)
        got = carry()
        if got[False] != [(messages.INVOKE, there)] or got[True] != [(messages.RESULT, back)]:
            return False
    return server.pongs == 1


def in_memory():
    check = Check("the peer against itself in memory, all settings and cuttings")
    cuttings = (lambda: 1, lambda: 1 << 20, lambda: random.randrange(1, 40))
    for modes in itertools.product(MODES, MODES):
        for versions in itertools.product(VERSIONS, VERSIONS):
            for crc in itertools.product((False, True), (False, True)):
                for padded in (False, True):
                    client = Settings(modes[0], KEY, versions[0], 0, crc[0], padded)
                    server = Settings(modes[1], KEY, versions[1], 0, crc[1], padded)
                    cutting = cuttings[check.cases % 3]
                    _one_in_memory(check, client, server, cutting)
    return check


def _one_in_memory(check, client_settings, server_settings, cutting):
    client = Link(True, client_settings, HERE, THERE)
    server = Link(False, server_settings, THERE, HERE)
    want = expected(client_settings.mode, server_settings.mode)
    try:
        good = converse(client, server, cutting)
        got = ("ciphered" if client.ciphered else "clear") if good else "broken"
    except Fault as fault:
        got = None if fault.number == 9 else str(fault)
    version = min(client_settings.version, server_settings.version)
    right = got == want and (want is None or client.version == server.version == version)
    check.that(right, f"{client_settings} {server_settings}: {got}, not {want}")


async def over_loopback():
    """Our front against our publisher, each cut at every place."""
    check = Check("the peer against itself over TCP, cut at every byte")
    book = Book()
    for version in VERSIONS:
        settings = Settings("only", KEY, version)
        for place in range(1, 200, 1):
            await _one_over_loopback(check, book, settings, CutAt(place, 0.0005), CutAt(place, 0.0005))
        await _one_over_loopback(check, book, settings, Bytewise(0.0001), Bytewise(0.0001))
    return check


async def _one_over_loopback(check, book, settings, front_cuts, publisher_cuts):
    publisher = Publisher(0, book, Script(settings, cuts=publisher_cuts, read_size=13))
    await publisher.start("127.0.0.2")
    front = Front(settings, cuts=front_cuts, read_size=11)
    await front.connect(publisher.address)
    good = await front.opened()
    payload = book.request(30, 50)
    good = good and book.judge(payload, await front.ask(5, payload))
    await front.close()
    await publisher.stop()
    broken = [wire.broken for wire in [front.wire, *publisher.all_wires] if wire.broken]
    check.that(good and not broken, f"{settings.version} {front.wire.fault} {broken}")


def mirrors():
    """What a mirror foretells, against what the side itself does that it stands for.

    Of a changed point it cannot know the keys, so several words may be right.
    """
    check = Check("a mirror foretells what the peer itself refuses, a bit flipped at every byte")
    for version, by_client in itertools.product(VERSIONS, (True, False)):
        for name, size in (("nonce", 76), ("handshake", 48), ("packet", 64)):
            for byte in range(size):
                change = flip(byte, random.randrange(8))
                _one_mirror(check, version, by_client, Once(name, change))
        for byte in range(60):
            change = change_nonce(byte, random.randrange(8))
            _one_mirror(check, version, by_client, Once("nonce", change))
    return check


def _one_mirror(check, version, by_client, damage):
    ours, other = Settings("only", KEY, version), Settings("only", KEY)
    # Deaf: it is the other side that has to find out.
    sides = {by_client: Link(by_client, ours, HERE, THERE, Twist(deaf=True)),
             not by_client: Link(not by_client, other, THERE, HERE)}
    mine, stranger = sides[by_client], sides[not by_client]
    wire = SimpleNamespace(link=mine, other=other, began=mine.clock(), sent=[], left=False,
                           opened=SimpleNamespace(is_set=lambda: False), verdict=None)
    sides[True].begin()
    got = _carry_damaged(mine, stranger, damage, wire.sent)
    words = foretell(wire).words
    check.that(damage.did and (got in words if words else got is None),
               f"version {version}, by client {by_client}, {damage.name}: {got}, not {words}")


def _carry_damaged(mine, stranger, damage, sent):
    """The word for what the stranger does in the end; None if it stays linked."""
    asked = False
    try:
        while mine.outbox or stranger.outbox:
            while stranger.outbox:
                mine.receive(stranger.outbox.popleft()[1])
            if mine.is_open and not asked:
                asked = True
                mine.send(messages.RESULT, noise(45))
                mine.send(messages.RESULT, noise(45), "extra")
            while mine.outbox:
                sent.append(damage(*mine.outbox.popleft()))
                stranger.receive(sent[-1])
    except Fault as fault:
        return fault_word(fault.number)
    return None if stranger.is_open else UNOPENED


def run_self():
    yield vectors()
    yield in_memory()
    yield mirrors()
    yield asyncio.run(over_loopback())
