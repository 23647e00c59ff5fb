"""Packets damaged on their way, after a good opening."""

import functools
import itertools
import random

from . import messages
from .book import noise
from .check_padding import spoilt_answer, spoilt_request
from .check_wrong import DAMAGED
from .cipher import BLOCK
from .damage import Once, again, flip, lose, swap, twice
from .ground import FRONT_KEY, KEY
from .link import VERSIONS, Settings
from .publisher import Script
from .report import Check
from .stage import spread

# ---- damaged answers


def _extra(wire):
    """One packet more, so that the relay need not wait for a lost block's bytes."""
    body = messages.result(1 << 61, noise(100))
    wire.link.send(messages.RESULT, body, "extra")


def _damaged_reply(publisher, damage, lawful=False):
    """Answers once, damaged; then sends one packet more, and answers Pings alone."""

    def answer(script, wire, number, payload):
        if damage.did:
            publisher.book.spoilt.add(payload)
            return
        page = publisher.book.look_up(payload)
        if not lawful:
            publisher.book.spoilt.add(payload)
        wire.link.send(messages.RESULT, messages.result(number, page), "damaged")
        _extra(wire)
        wire.wake()

    return answer


async def _damaged_answer(stage, front, check, change, size, text, lawful, index):
    damage = Once("damaged", change)
    script = Script(Settings("only", KEY, random.choice(VERSIONS)), damage=damage, only_size=size,
                    answer=_damaged_reply(stage.publishers[index], damage, lawful))
    opened = await stage.play(index, script)
    wrong = len(stage.book.wrong)
    right = await stage.ask_until_hit(front, index, script, 40, size)
    refused = await stage.refused(script)
    good = opened and damage.did and refused and (lawful or right is False)
    check.that(good and len(stage.book.wrong) == wrong,
               f"{text}: opened {opened}, refused {refused}, delivered {right}")
    stage.drop(script)


def packet_size(page_size):
    """An answer's bytes on a ciphered link, when it begins a block."""
    return (8 + page_size + 16 + 15) // 16 * 16


async def flipped_answers(stage, front):
    check = Check("a bit flipped at every byte of an answer, and sampled in long ones")
    cases = [(77, byte) for byte in range(packet_size(77))]
    cases += [(4, byte) for byte in range(packet_size(4))]
    for size in (1000, 20000):
        cases += [(size, byte) for byte in random.sample(range(packet_size(size)), 30)]
    jobs = [functools.partial(_damaged_answer, stage, front, check, flip(byte, random.randrange(8)),
                              size, f"{size} bytes, byte {byte}", False) for size, byte in cases]
    await spread(jobs, DAMAGED, check)
    await stage.settle(check)
    return (check,)


# ---- damaged requests


async def _damaged_request(stage, check, change, size, text, lawful, index):
    damage = Once("invoke", change)
    front = await stage.front(Settings("only", FRONT_KEY, random.choice(VERSIONS)), damage=damage)
    opened = await front.opened()
    unknown, wrong = len(stage.book.unknown), len(stage.book.wrong)
    # Not in the book: should it come through, the publisher finds it strange.
    payload = stage.book.request(size) if lawful else noise(size)
    for turn, (data, name) in enumerate(((payload, "invoke"), (noise(100), "extra"))):
        body = messages.invoke(front.next_number + turn, stage.actor(index, 0), data)
        front.link.send(messages.INVOKE, body, name)
    front.wire.wake()
    refused = await stage.refused_front(front)
    good = opened and damage.did and refused
    if lawful:
        front.strays = [stray for stray in front.strays if stray[1] != stage.book.answers[payload]]
    good = good and not [page for _, page in front.strays if page is not None]
    check.that(good and len(stage.book.unknown) == unknown and len(stage.book.wrong) == wrong,
               f"{text}: opened {opened}, refused {refused}, strays {front.strays}")
    front.strays = []
    await stage.leave(front)


async def flipped_requests(stage, _):
    check = Check("a bit flipped at every byte of a request, and sampled in long ones")
    cases = [(65, byte) for byte in range(packet_size(65 + 12))]
    for size in (1000, 20000):
        cases += [(size, byte) for byte in random.sample(range(packet_size(size + 12)), 30)]
    jobs = [functools.partial(_damaged_request, stage, check, flip(byte, random.randrange(8)),
                              size, f"{size} bytes, byte {byte}", False) for size, byte in cases]
    await spread(jobs, DAMAGED, check)
    await stage.settle(check)
    return (check,)


# ---- blocks


async def blocks(stage, front):
    check = Check("blocks of a packet lost, sent twice, exchanged; whole packets twice")
    count = packet_size(77) // BLOCK
    jobs = []
    for name, change, blocks in (("lost", lose, count), ("twice", twice, count),
                                 ("exchanged", swap, count - 1)):
        for block in range(blocks):
            # Behind a last block that comes twice the packet itself is whole.
            lawful = name == "twice" and block == count - 1
            text = f"block {block} {name}"
            jobs.append(functools.partial(_damaged_answer, stage, front, check, change(block), 77,
                                          "answer, " + text, lawful))
            jobs.append(functools.partial(_damaged_request, stage, check, change(block), 65,
                                          "request, " + text, lawful))
    jobs.append(functools.partial(_damaged_answer, stage, front, check, again, 77,
                                  "a whole answer twice", True))
    jobs.append(functools.partial(_damaged_request, stage, check, again, 65,
                                  "a whole request twice", True))
    await spread(jobs, DAMAGED, check)
    await stage.settle(check)
    return (check,)


# ---- padding


async def padding(stage, front):
    check = Check("padding other than zero, a fourth word of 4")
    jobs = []
    for fault, size in itertools.product(("zeros", "words"), (37, 38, 39, 77, 1001)):
        jobs.append(functools.partial(spoilt_answer, stage, front, check, size, fault))
        jobs.append(functools.partial(spoilt_request, stage, check, None, size, fault))
    await spread(jobs, DAMAGED, check)
    await stage.settle(check)
    return (check,)
