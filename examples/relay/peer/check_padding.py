"""Padding against the rules, in a publisher's answer and in a front's request."""

from . import messages
from .book import noise
from .damage import PADDING_FAULTS, spoil
from .publisher import Script


async def spoilt_answer(stage, front, check, size, fault, index):
    def answer(script, wire, number, payload):
        stage.book.spoilt.add(payload)
        page = stage.book.look_up(payload)
        spoil(wire.link.going, fault, messages.RESULT, messages.result(number, page))
        wire.link.push("answer")
        wire.wake()

    script = Script(stage.publishers[index].usual.settings, answer=answer, only_size=size)
    opened = await stage.play(index, script)
    right = await stage.ask_until_hit(front, index, script, 40, size)
    refused = await stage.refused(script, PADDING_FAULTS[fault])
    check.that(opened and right is False and refused,
               f"publisher {index}, answer of {size} bytes, {fault}: opened {opened}, "
               f"refused {refused}, delivered {right}")
    stage.drop(script)


async def spoilt_request(stage, check, settings, size, fault, index=0):
    front = await stage.open_front(settings)
    unknown = len(stage.book.unknown)
    # Not in the book: a publisher that gets it finds it strange.
    body = messages.invoke(5, stage.actor(index, 0), noise(size))
    spoil(front.link.going, fault, messages.INVOKE, body)
    front.link.push("invoke")
    front.wire.wake()
    refused = await stage.refused_front(front, PADDING_FAULTS[fault])
    check.that(front.wire.opened.is_set() and refused and len(stage.book.unknown) == unknown,
               f"request of {size} bytes, {fault}: refused {refused}")
    await stage.leave(front)
