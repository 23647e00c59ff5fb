"""Cancels, through links of all kinds. The closing conversation is a request that has not landed."""

import asyncio
import struct

from . import messages
from .check_pings import becomes
from .check_talk import fronts_of_all_kinds, mixed
from .front import first_of
from .ground import FRONT_KEY
from .link import Settings
from .publisher import Script
from .report import Check
from .stage import PATIENCE


async def cancels(ground):
    check = Check("a front's cancel, or its end, cancels at the publisher")
    async with ground.stage(mixed(ground), fronts=Settings("either", FRONT_KEY)) as stage:
        await stage.all_open()
        kinds = fronts_of_all_kinds()
        for index in range(8):
            settings = kinds[index % len(kinds)]
            await _cancel(stage, check, index, settings, by_message=True)
            await _cancel(stage, check, index, settings, by_message=False)
    return (check,)


class Held:
    """A request that a publisher has got and does not answer yet."""

    def __init__(self, stage, index, settings):
        self.stage, self.index = stage, index
        self.settings = settings
        self.number = self.payload = self.wire = self.front = self.asking = None
        self.script = Script(stage.publishers[index].usual.settings, answer=self._keep)

    def _keep(self, script, wire, number, payload):
        self.wire, self.number, self.payload = wire, number, payload

    async def ask(self):
        """True once the publisher has it."""
        stage = self.stage
        self.front = await stage.open_front(self.settings)
        opened = await stage.play(self.index, self.script)
        self.asking = asyncio.ensure_future(
            stage.ask_until_hit(self.front, self.index, self.script))
        await first_of(PATIENCE, self.script.hit)
        return opened and self.script.hit.is_set()

    def send(self, wire, kind, body=b""):
        wire.link.send(kind, body)
        wire.wake()

    async def leave(self):
        self.asking.cancel()
        self.stage.drop(self.script)
        await self.stage.leave(self.front)


async def _cancel(stage, check, index, settings, by_message):
    held = Held(stage, index, settings)
    good = await held.ask()
    if good and by_message:
        number = held.front.next_number - 1
        held.send(held.front.wire, messages.CANCEL, struct.pack("<q", number))
    elif good:
        held.front.wire.abort()
    want = (messages.CANCEL, struct.pack("<q", held.number or 0))
    good = good and await becomes(lambda: want in held.script.others)
    check.that(good and not held.script.wire.done.is_set(),
               f"publisher {index}, by message {by_message}: {held.script.others}")
    await held.leave()
