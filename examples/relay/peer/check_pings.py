"""Pings and Pongs, ours and the relay's."""

import asyncio
import random
import struct

from .check_talk import fronts_of_all_kinds, mixed, open_links
from .ground import FRONT_KEY, KEY
from .link import PING, PONG, VERSIONS, Settings, Twist
from .publisher import Script
from .report import Check
from .stage import PATIENCE


async def pings(ground):
    ours = Check("the relay answers Pings, also one straight behind a Handshake")
    theirs = Check("the relay's Pings, answered, keep links open")
    mute = Check("the relay ends links whose Pings are not answered")
    strange = Check("Pongs not awaited and Pings of a wrong size are refused")
    async with ground.stage(mixed(ground), fronts=Settings("either", FRONT_KEY), ping=300) as stage:
        await stage.all_open()
        fronts = [await stage.front(settings) for settings in fronts_of_all_kinds()]
        for front in fronts:
            await front.opened()
        await _relay_pings(stage, fronts, theirs)
        await _our_pings(stage, fronts, ours)
        await _mute(stage, mute)
        await stage.settle(mute)
        await _strange(stage, strange)
        await stage.settle(strange)
    return ours, theirs, mute, strange


async def _relay_pings(stage, fronts, check):
    links = open_links(stage, fronts)
    before = [len(link.pinged) for link in links]
    await asyncio.sleep(1.6)
    for link, old in zip(links, before):
        side, count = "front" if link.is_client else "publisher", len(link.pinged) - old
        check.that(count >= 3, f"{side} {link.settings.mode}: {count} Pings in 1.6 s")
    still = [wire for publisher in stage.publishers for wire in publisher.wires]
    check.that(len(still) == 8, f"{len(still)} of 8 publishers' links left")
    for index in range(8):
        check.that(await stage.ask(fronts[index % len(fronts)], index), f"publisher {index} after Pings")
    check.note = f"{sum(len(link.pinged) for link in links)} Pings"


async def _our_pings(stage, fronts, check):
    wires = [wire for publisher in stage.publishers for wire in publisher.wires]
    for wire in wires + [front.wire for front in fronts]:
        for number in (0, 1, 0xFFFFFFFFFFFFFFFF, random.getrandbits(64)):
            before = wire.link.pongs
            wire.link.ping(number)
            wire.wake()
            check.that(await becomes(lambda: wire.link.pongs == before + 1), f"Ping {number:#x}: no Pong")
    for version in VERSIONS:
        script = Script(Settings("only", KEY, version), Twist(early_ping=77))
        # Publisher 2 takes every version.
        opened = await stage.play(2, script)
        check.that(opened and await becomes(lambda: script.wire.link.pongs == 1),
                   f"Ping behind the Handshake, version {version}: opened {opened}")
        stage.drop(script)


async def becomes(true, limit=PATIENCE):
    for _ in range(int(limit / 0.005)):
        if true():
            return True
        await asyncio.sleep(0.005)
    return true()


async def _mute(stage, check):
    scripts = [Script(publisher.usual.settings, mute=True) for publisher in stage.publishers]

    async def one(index):
        await stage.play(index, scripts[index])
        check.that(await stage.ended(scripts[index]), f"publisher {index} stays linked")

    await asyncio.gather(*[one(index) for index in range(8)])
    for settings in fronts_of_all_kinds():
        front = await stage.front(settings)
        front.link.mute = True
        check.that(await front.opened() and await front.ended(), f"front {settings.mode} stays linked")
        await stage.leave(front)


async def _strange(stage, check):
    eight = struct.pack("<Q", 0x123456789)
    for kind, body, number in ((PONG, eight, 21), (PONG, eight[:7], 17), (PING, eight[:7], 17),
                               (PING, eight + b"\0", 17), (PING, b"", 17)):
        text = f"type {kind:#x} of {len(body)} bytes"

        async def one(index):
            script = Script(stage.publishers[index].usual.settings)
            opened = await stage.play(index, script)
            if opened:
                script.wire.link.send(kind, body)
                script.wire.wake()
            check.that(opened and await stage.refused(script, number), f"{text}, publisher {index}")

        await asyncio.gather(*[one(index) for index in range(8)])
        for settings in fronts_of_all_kinds():
            front = await stage.open_front(settings)
            front.link.send(kind, body)
            front.wire.wake()
            check.that(await stage.refused_front(front, number), f"{text}, front {settings.mode}")
            await stage.leave(front)
