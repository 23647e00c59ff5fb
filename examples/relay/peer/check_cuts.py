"""Bytes in any pieces: cut at every place, byte by byte, read by the byte."""

import functools

from .ground import FRONT_KEY, KEY
from .link import VERSIONS, Settings
from .publisher import Script
from .report import Check
from .stage import spread
from .wire import Bytewise, CutAt

# Answers and requests whose packets end in padding zeros and words of 4.
ANSWER_SIZE = 37
REQUEST_SIZE = 37


async def cuts(ground):
    there = Check("publisher's ciphered bytes cut at every place")
    back = Check("front's ciphered bytes cut at every place")
    bytewise = Check("byte by byte, both sides, every version")
    reading = Check("read in pieces of 1 to 33 bytes")
    async with ground.stage([ground.row("only")] * 8, fronts=Settings("only", FRONT_KEY)) as stage:
        front = await stage.open_front()
        await stage.all_open()
        await _publishers(stage, front, there)
        await _fronts(stage, back)
        await _bytewise(stage, front, bytewise)
        await _reading(stage, front, reading)
        await stage.settle(reading)
    return there, back, bytewise, reading


async def _publishers(stage, front, check):
    jobs = [functools.partial(_one_publisher, stage, front, check, version, place)
            for version in VERSIONS for place in range(1, 76 + 48 + 64)]
    await spread(jobs, range(8), check)


async def _one_publisher(stage, front, check, version, place, index):
    script = Script(Settings("only", KEY, version), cuts=CutAt(place))
    opened = await stage.play(index, script)
    good = opened and await stage.ask_until_hit(front, index, script, 40, ANSWER_SIZE)
    check.that(good, f"version {version}, cut after {place} bytes: opened {opened}")
    stage.drop(script)


async def _fronts(stage, check):
    jobs = [functools.partial(_one_front, stage, check, version, place)
            for version in VERSIONS for place in range(1, 76 + 48 + 80)]
    await spread(jobs, range(8), check)


async def _one_front(stage, check, version, place, index):
    front = await stage.front(Settings("only", FRONT_KEY, version), cuts=CutAt(place))
    opened = await front.opened()
    good = opened and await stage.ask(front, None, REQUEST_SIZE)
    check.that(good, f"version {version}, cut after {place} bytes: opened {opened}")
    await stage.leave(front)


async def _bytewise(stage, front, check):
    for version in VERSIONS:
        async def one(index, version=version):
            script = Script(Settings("only", KEY, version), cuts=Bytewise())
            opened = await stage.play(index, script)
            good = opened and await stage.ask_until_hit(front, index, script, 40, ANSWER_SIZE)
            check.that(good, f"publisher, version {version}: opened {opened}")
            stage.drop(script)

        await spread([one] * 8, range(8), check)
        mine = await stage.front(Settings("only", FRONT_KEY, version), cuts=Bytewise())
        good = await mine.opened() and await stage.ask(mine, None, REQUEST_SIZE)
        check.that(good, f"front, version {version}")
        await stage.leave(mine)


async def _reading(stage, front, check):
    for size in (1, 2, 3, 5, 7, 11, 15, 16, 17, 33):
        script = Script(Settings("only", KEY), read_size=size)
        opened = await stage.play(size % 8, script)
        good = opened and await stage.ask_until_hit(front, size % 8, script, 700, 40)
        check.that(good, f"publisher reads by {size}: opened {opened}")
        stage.drop(script)
        mine = await stage.front(Settings("only", FRONT_KEY), read_size=size)
        good = await mine.opened() and await stage.ask(mine, None, 40, 700)
        check.that(good, f"front reads by {size}")
        await stage.leave(mine)
