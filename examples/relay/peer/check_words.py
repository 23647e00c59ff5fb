"""Words of value 4, padding zeros, and several packets in one piece."""

import asyncio
import itertools

from . import messages
from .check_padding import spoilt_answer, spoilt_request
from .check_talk import mixed
from .ground import FRONT_KEY
from .link import Settings
from .report import Check
from .stage import PATIENCE


async def words(ground):
    check = Check("words of 4 between packets, packets that begin inside a block")
    async with ground.stage(mixed(ground), fronts=Settings("either", FRONT_KEY)) as stage:
        await stage.all_open()
        front = await stage.open_front(Settings("only", FRONT_KEY))
        padded = (1, 2, 3, 4, 6, 7)     # publishers on padded links
        for count in range(4):
            for index in padded:
                await _joined_answers(stage, check, front, index, count)
            await _joined_requests(stage, check, count, Settings("only", FRONT_KEY))
        clear = await _clear_padding(stage, front)
    return check, clear


async def _clear_padding(stage, front):
    """The padded profile without a cipher; and links without padding."""
    check = Check("clear links: padding and words judged if padded, a word refused if not")
    for index, fault in itertools.product((1, 6), ("zeros", "words")):
        for size in (37, 38, 39):
            await spoilt_answer(stage, front, check, size, fault, index)
    for index in (0, 5):
        await spoilt_answer(stage, front, check, 37, "one word", index)
    await stage.settle(check)
    return check


def _joiner(book, publisher, count):
    """Gathers requests for a moment and answers them in one piece."""
    waiting = []

    def send(script, wire):
        going = wire.link.going
        # Three words in all stand before the first packet.
        going.words(3 - going.trailing)
        for turn, (number, payload) in enumerate(waiting):
            if turn:
                going.words(count)
            book.where[payload] = publisher
            going.packet(messages.RESULT, messages.result(number, book.look_up(payload)))
        wire.link.push("answer")
        wire.wake()
        waiting.clear()

    def answer(script, wire, number, payload):
        if not waiting:
            asyncio.get_running_loop().call_later(0.01, send, script, wire)
        waiting.append((number, payload))

    return answer


async def _joined_answers(stage, check, front, index, count):
    usual = stage.publishers[index].usual
    usual.answer = _joiner(stage.book, index, count)
    for sizes in ((20, 21, 22, 23), (0, 1, 2, 3), (33, 64, 90, 7)):
        asks = [_ask_sized(stage, front, stage.actor(index, turn), size)
                for turn, size in enumerate(sizes)]
        got = await asyncio.gather(*asks)
        check.that(all(got), f"answers of {sizes} bytes with {count} words between: {got}")
    usual.answer = None


async def _ask_sized(stage, front, actor, answer_size):
    payload = stage.book.request(40, answer_size)
    return stage.book.judge(payload, await front.ask(actor, payload, PATIENCE))


async def _joined_requests(stage, check, count, settings):
    """Several invokes in one piece, so many words between them."""
    front = await stage.open_front(settings)
    loop, going = asyncio.get_running_loop(), front.link.going
    for sizes in ((24, 25, 26, 27), (60, 33, 40, 51)):
        waits = []
        going.words(3 - going.trailing)
        for turn, size in enumerate(sizes):
            if turn:
                going.words(count)
            payload = stage.book.request(size)
            number, front.next_number = front.next_number, front.next_number + 1
            front.asked[number] = loop.create_future()
            waits.append((payload, front.asked[number]))
            going.packet(messages.INVOKE, messages.invoke(number, turn, payload))
        front.link.push("invoke")
        front.wire.wake()
        await asyncio.wait([future for _, future in waits], timeout=PATIENCE)
        got = [future.done() and stage.book.judge(payload, future.result())
               for payload, future in waits]
        check.that(all(got), f"requests of {sizes} bytes with {count} words between: {got}")
    await stage.leave(front)


async def padded_fronts(ground):
    check = Check("fronts on clear padded links: sizes, words, padding")
    settings = Settings("clear", padded=True)
    fronts = Settings("either", FRONT_KEY, padded=True)
    async with ground.stage(mixed(ground), fronts=fronts) as stage:
        await stage.all_open()
        front = await stage.open_front(settings)
        for size in (*range(24, 44), 1000, 70000):
            for answer_size in (size - 24, size):
                good = await stage.ask(front, None, size, answer_size)
                check.that(good, f"{size} there, {answer_size} back")
        for count in range(4):
            await _joined_requests(stage, check, count, settings)
            await _joined_requests(stage, check, count, Settings("only", FRONT_KEY, count % 3))
        for fault, size in itertools.product(("zeros", "words"), (37, 38, 39)):
            await spoilt_request(stage, check, settings, size, fault)
        await stage.settle(check)
    return (check,)
