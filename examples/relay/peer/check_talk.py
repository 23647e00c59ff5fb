"""Requests and answers through open links: unchanged, and to the one who asked."""

import asyncio
import functools
import itertools
import os
import random

from . import messages
from .book import noise
from .ground import FRONT_KEY, KEY
from .link import VERSIONS, Settings
from .publisher import Script
from .report import Check
from .stage import PATIENCE

SIZES = (*range(0, 36), 47, 48, 63, 64, 65, 100, 251, 252, 253, 254, 255, 256, 257, 1000,
         1023, 1024, 1025, 4079, 4095, 4096, 4097, 8191, 8192, 16384, 20001, 32767, 32768,
         65519, 65535, 65536, 65537, 69999, 70000)


def mixed(ground):
    """Eight publishers, each with settings of its own."""
    return [
        ground.row("clear"),
        ground.row("clear", Settings("clear", padded=True), padded="yes"),
        ground.row("only", Settings("only", KEY, 0), lowest=0),
        ground.row("only", Settings("only", KEY, 1), padded="no", lowest=1),
        ground.row("only", Settings("only", KEY, 2), padded="yes", lowest=2),
        ground.row("either", Settings("clear", crc32c=False), padded="no"),
        ground.row("either", Settings("clear", padded=True, crc32c=False), padded="yes"),
        ground.row("either", Settings("either", KEY, crc32c=False)),
    ]


def fronts_of_all_kinds():
    return [Settings("clear"), Settings("only", FRONT_KEY, 0), Settings("either", FRONT_KEY, 1),
            Settings("only", FRONT_KEY, 2), Settings("either", FRONT_KEY, 2, crc32c=False)]


async def sizes_and_crossing(ground):
    sizes = Check("requests and answers of 0 to 70,000 bytes go through unchanged")
    cross = Check("many fronts at once: every answer to the one who asked")
    whole = Check("the relay's ciphered bytes are whole blocks")
    sums = Check("both checksums were in use")
    async with ground.stage(mixed(ground), fronts=Settings("either", FRONT_KEY)) as stage:
        await stage.all_open()
        fronts = [await stage.front(settings) for settings in fronts_of_all_kinds()]
        for front in fronts:
            sizes.that(await front.opened(), f"front {front.settings} does not open")
        await _sizes(stage, fronts, sizes)
        await _crossing(stage, cross)
        await asyncio.sleep(0.05)
        _whole_blocks(stage, fronts, whole)
        with_crc32c = _sums(stage, fronts)
        sums.that(False in with_crc32c, "no link with CRC-32")
        sums.that(True in with_crc32c, "no link with CRC-32C")
        sums.note = f"{with_crc32c.count(True)} of {len(with_crc32c)} links by CRC-32C"
    return sizes, cross, whole, sums


async def _sizes(stage, fronts, check):
    """One at a time: small payloads are alike, and tell nobody apart."""
    ways = list(itertools.product(range(8), fronts))
    random.shuffle(ways)
    for turn, size in enumerate(SIZES * 12):
        index, front = ways[turn % len(ways)]
        # Long ones in both directions at once are rare, to save time.
        answer_size = SIZES[-1 - turn % len(SIZES)] if turn % 3 else size
        await _exchange(stage, front, index, size, answer_size, check)
    for index, front in ways:
        await _exchange(stage, front, index, 0, 0, check)
        await _exchange(stage, front, index, 70000, 70000, check)


async def _exchange(stage, front, index, size, answer_size, check):
    if check.hopeless:
        return
    payload = noise(size)
    stage.book.put(payload, noise(answer_size))
    # Requests that go in turn reach all publishers without being led there.
    good = await stage.ask(front, index if stage.routes else None, payload=payload)
    check.that(good, f"{size} there, {answer_size} back, publisher {index}, {front.settings.mode}")


async def _crossing(stage, check):
    """Thirty-two in flight, four for each publisher, answered in any order."""
    for publisher in stage.publishers:
        publisher.usual.answer = functools.partial(_late_reply, publisher)
    kinds = itertools.cycle(fronts_of_all_kinds())
    fronts = [await stage.front(next(kinds)) for _ in range(16)]
    for front in fronts:
        await front.opened()
        front.next_number = 1    # the same numbers on all links
    for _ in range(30):
        asks = [_one_of_many(stage, fronts[turn % 16], turn % 8, check) for turn in range(32)]
        random.shuffle(asks)
        await asyncio.gather(*asks)
    for publisher in stage.publishers:
        publisher.usual.answer = None
    for front in fronts:
        check.that(not front.strays, f"an answer that was not asked for: {front.strays[:1]}")
        await stage.leave(front)


def _late_reply(publisher, script, wire, number, payload):
    loop = asyncio.get_running_loop()
    loop.call_later(random.random() * 0.02, publisher.reply, script, wire, number, payload)


async def _one_of_many(stage, front, actor, check):
    payload = stage.book.request(random.randrange(24, 200), random.randrange(4, 400))
    answer = await front.ask(actor, payload, PATIENCE)
    check.that(stage.book.judge(payload, answer), f"actor {actor}: {answer}")


def open_links(stage, fronts):
    links = [wire.link for publisher in stage.publishers for wire in publisher.wires]
    return [link for link in links + [front.link for front in fronts] if link.is_open]


def _whole_blocks(stage, fronts, check):
    for link in open_links(stage, fronts):
        if link.ciphered:
            coming = link.coming
            check.that(coming.ciphered % 16 == 0 and not coming.raw and not coming.plain,
                       f"{coming.ciphered} bytes, {len(coming.plain)} not understood")


def _sums(stage, fronts):
    return [link.crc32c for link in open_links(stage, fronts)]


async def key_lengths(ground):
    """Every length over a block of the digests, and the longest."""
    check = Check("keys of 32 to 4,096 bytes, each by versions 0, 1 and 2")
    lengths = [*range(32, 98), 119, 120, 127, 128, 1000, 4095, 4096]
    while lengths:
        mine, lengths = lengths[:8], lengths[8:]
        mine += [32] * (8 - len(mine))
        await _eight_lengths(ground, check, mine)
    return (check,)


async def _eight_lengths(ground, check, lengths):
    # Zeros in the first four bytes are fit as long as one byte is not zero.
    firsts = itertools.cycle((b"\0\0\0\1", b"\1\0\0\0", b"\xff" * 4, b"abcd", b"\n\0\n\0"))
    keys = [next(firsts) + os.urandom(length - 4) for length in lengths]
    rows = [ground.row("only", key=key) for key in keys]
    fronts = Settings("only", keys[-1])
    async with ground.stage(rows, fronts=fronts) as stage:
        fronts = [await stage.front(Settings("only", keys[-1], version)) for version in VERSIONS]
        for front in fronts:
            check.that(await front.opened() and await stage.ask(front),
                       f"front with a key of {lengths[-1]} bytes")

        async def all_versions(index):
            for version in VERSIONS:
                script = Script(Settings("only", keys[index], version))
                opened = await stage.play(index, script)
                good = opened and await stage.ask_until_hit(fronts[version], index, script)
                check.that(good, f"key of {lengths[index]} bytes, version {version}: opened {opened}")
                stage.drop(script)

        await asyncio.gather(*[all_versions(index) for index in range(8)])


async def error_forms(ground):
    check = Check("errors in all forms: code and text reach the front")
    texts = (b"", b"a", b"abc", b"abcd", b"e" * 253, b"f" * 254, b"g" * 255, b"h" * 1000)
    async with ground.stage(mixed(ground), fronts=Settings("either", FRONT_KEY)) as stage:
        await stage.all_open()
        front = await stage.open_front(Settings("only", FRONT_KEY))
        for turn, words in enumerate(texts):
            for form in range(7):
                await _one_error(stage, front, check, turn % 8, form, -3000 - turn, words)
    return (check,)


async def _one_error(stage, front, check, index, form, code, words):
    def answer(_, wire, number, payload):
        kind, body = list(messages.errors(number, code, words))[form]
        wire.link.send(kind, body, "answer")
        wire.wake()

    for publisher in stage.publishers:
        publisher.usual.answer = answer
    answer = await front.ask(stage.actor(index, 0), noise(40), PATIENCE)
    got = answer and (answer.page, answer.code, answer.text)
    check.that(got == (None, code, words), f"form {form}, {len(words)} bytes: {got!r:.80}")


LONGEST_REQUEST = 16777215 - 16 - 8 - 12   # behind number and actor
LONGEST_PAGE = 16777215 - 16 - 8


async def longest(ground):
    check = Check("the longest packets, there and back through ciphers; one byte more ends the link")
    # Of the two checksums the one that costs us less time.
    usual = Settings("only", KEY, crc32c=False)
    rows = [ground.row("only", usual)] * 8
    async with ground.stage(rows, fronts=Settings("only", FRONT_KEY), ping=60000) as stage:
        await stage.all_open()
        front = await stage.open_front(Settings("only", FRONT_KEY, crc32c=False))
        for size, answer_size in ((LONGEST_REQUEST, 30), (30, LONGEST_PAGE)):
            payload = stage.book.request(size, answer_size)
            answer = await front.ask(0, payload, 30.0)
            check.that(stage.book.judge(payload, answer), f"{size} there, {answer_size} back")
        await front.ask(0, noise(LONGEST_REQUEST + 1), 30.0)
        check.that(await stage.refused_front(front, 2), "a request too long")
        front = await stage.open_front(Settings("only", FRONT_KEY, crc32c=False))
        script = Script(usual, only_size=LONGEST_PAGE + 1)
        opened = await stage.play(1, script)
        answer = await stage.ask_until_hit(front, 1, script, 40, LONGEST_PAGE + 1)
        check.that(opened and answer is False and await stage.refused(script, 2), "an answer too long")
        await stage.settle(check)
    return (check,)
