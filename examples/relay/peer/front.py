"""A front end: a client that connects to the relay and asks."""

import asyncio
import random
from dataclasses import dataclass

from . import messages
from .link import Link, Settings
from .wire import Wire, address_of


@dataclass
class Answer:
    page: bytes = None
    code: int = None
    text: bytes = None


class Front:
    def __init__(self, settings=None, twist=None, cuts=None, damage=None, read_size=65536,
                 other=None):
        self.settings = settings or Settings()
        self.twist, self.cuts, self.damage = twist, cuts, damage
        self.read_size, self.other = read_size, other
        self.wire = self.link = None
        self.next_number = random.randrange(1, 1 << 40)
        self.asked = {}
        self.strays = []         # answers to what was not asked here
        self._task = None

    async def connect(self, address, source=None):
        local = (source, 0) if source else None
        reader, writer = await asyncio.open_connection(*address, local_addr=local)
        here = address_of(writer.get_extra_info("sockname"))
        there = address_of(writer.get_extra_info("peername"))
        self.link = Link(True, self.settings, here, there, self.twist)
        self.wire = Wire(reader, writer, self.link, self.cuts, self.damage, self.read_size,
                         self.other)
        self._task = asyncio.ensure_future(self._run())

    async def _run(self):
        await self.wire.run(self._packet)
        for future in self.asked.values():
            if not future.done():
                future.set_result(None)

    def _packet(self, wire, kind, body):
        if kind not in (messages.RESULT, messages.OLD_ERROR):
            return
        number, page, code, text = messages.read_result(kind, body)
        future = self.asked.pop(number, None)
        if future is None:
            self.strays.append((number, page))
        elif not future.done():
            future.set_result(Answer(page, code, text))

    async def opened(self, limit=3.0):
        """True once open; False if the connection ended or time ran out first."""
        await first_of(limit, self.wire.opened, self.wire.done)
        return self.wire.opened.is_set()

    async def ended(self, limit=3.0):
        """True if the relay has ended the connection."""
        await first_of(limit, self.wire.done)
        return self.wire.done.is_set() and self.wire.ended_by_other

    async def ask(self, actor, payload, limit=3.0):
        """An Answer; None if the link ended or nothing came in time."""
        number, self.next_number = self.next_number, self.next_number + 1
        future = asyncio.get_running_loop().create_future()
        if self.wire.done.is_set():
            return None
        self.asked[number] = future
        self.link.send(messages.INVOKE, messages.invoke(number, actor, payload), "invoke")
        self.wire.wake()
        try:
            return await asyncio.wait_for(future, limit)
        except asyncio.TimeoutError:
            # An answer that comes later is still for this request.
            self.asked[number] = asyncio.get_running_loop().create_future()
            return None

    async def close(self):
        if self.wire is not None:
            self.wire.abort()
            await self._task


async def first_of(limit, *events):
    """Waits for the first of some events, or for so many seconds."""
    tasks = [asyncio.ensure_future(event.wait()) for event in events]
    await asyncio.wait(tasks, timeout=limit, return_when=asyncio.FIRST_COMPLETED)
    for task in tasks:
        task.cancel()
