"""Connections that we break off inside a packet: nothing arrives, and nothing is refused.

What the relay has got until then is right as far as it goes, so no rule
applies, and the end of the connection is ours.
"""

import functools
import random

from . import messages
from .book import noise
from .check_damage import packet_size
from .check_wrong import DAMAGED
from .damage import Once, break_off
from .ground import FRONT_KEY, KEY
from .link import VERSIONS, Settings
from .mirror import foretell
from .publisher import Script
from .report import Check
from .stage import spread

NONCE_SIZE, HANDSHAKE_SIZE = 76, 48   # as packets, the second one in whole blocks


def _mine(wire):
    """The end was ours, and the bytes before it give no rule a reason."""
    verdict = foretell(wire)
    return wire.done.is_set() and wire.left and not verdict.words and not verdict.dropped


async def answers(stage, front):
    """A publisher that dies in the middle of its answer."""
    check = Check("answers broken off at every byte: an error or nothing, no page")

    async def one(kept, index):
        def answer(script, wire, number, payload):
            stage.book.spoilt.add(payload)
            page = stage.book.look_up(payload)
            wire.link.send(messages.RESULT, messages.result(number, page), "broken")
            wire.wake()

        script = Script(Settings("only", KEY, random.choice(VERSIONS)), answer=answer,
                        only_size=77, damage=Once("broken", break_off(kept)))
        opened = await stage.play(index, script)
        right = await stage.ask_until_hit(front, index, script, 40, 77)
        mine = await stage.over(script) and _mine(script.wire)
        check.that(opened and right is False and mine,
                   f"after {kept} bytes: opened {opened}, ended by us {mine}, delivered {right}")

    jobs = [functools.partial(one, kept) for kept in range(packet_size(77))]
    await spread(jobs, DAMAGED, check)
    await stage.settle(check)
    return (check,)


async def requests(stage, _):
    check = Check("requests broken off at every byte: no publisher gets them")

    async def one(kept, index):
        settings = Settings("only", FRONT_KEY, random.choice(VERSIONS))
        front = await stage.open_front(settings, damage=Once("invoke", break_off(kept)))
        opened, unknown = front.wire.opened.is_set(), len(stage.book.unknown)
        # Not in the book: a publisher that gets it finds it strange.
        answer = await front.ask(stage.actor(index, 0), noise(65))
        check.that(opened and answer is None and _mine(front.wire)
                   and len(stage.book.unknown) == unknown,
                   f"after {kept} bytes: opened {opened}, answer {answer}")
        await stage.leave(front)

    jobs = [functools.partial(one, kept) for kept in range(packet_size(65 + 12))]
    await spread(jobs, DAMAGED, check)
    await stage.settle(check)
    return (check,)


async def openings(stage, _):
    there = Check("a publisher's opening broken off at every byte")
    back = Check("a front's opening broken off at every byte")

    async def publisher(name, kept, version, index):
        script = Script(Settings("only", KEY, version), damage=Once(name, break_off(kept)))
        await stage.play(index, script)
        mine = await stage.over(script) and _mine(script.wire)
        there.that(mine and not script.requests, f"{name}, after {kept} bytes: ended by us {mine}")

    async def front(name, kept, version, _):
        mine = await stage.open_front(Settings("only", FRONT_KEY, version),
                                      damage=Once(name, break_off(kept)))
        await mine.ended()
        back.that(_mine(mine.wire) and not mine.wire.opened.is_set(), f"{name}, after {kept} bytes")
        await stage.leave(mine)

    places = [("nonce", kept) for kept in range(NONCE_SIZE)]
    places += [("handshake", kept) for kept in range(HANDSHAKE_SIZE)]
    for one, check in ((publisher, there), (front, back)):
        jobs = [functools.partial(one, *place, random.choice(VERSIONS)) for place in places]
        await spread(jobs, DAMAGED, check)
        await stage.settle(check)
    return there, back
