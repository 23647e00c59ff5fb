"""A relay with eight publishers around it, and fronts to ask through it.

Nothing here supposes how the relay chooses a publisher: a test that needs a
certain one asks until that one has been reached.
"""

import asyncio
import random
from collections import Counter, deque
from dataclasses import dataclass

from .front import Front, first_of
from .link import Settings
from .mirror import foretell
from .publisher import Publisher, Script
from .relay import PATIENCE, Relay, key_path
from .tally import differences

PUBLISHERS = 8

# The publishers' addresses differ from the relay's own, so that version 0,
# which has addresses in its keys, would show any that are exchanged.
PUBLISHER_IP = "127.0.0.2"
FRONT_IP = "127.0.0.3"


def options(mode="clear", key_path=None, padded=None, lowest=None):
    """The relay's settings for one publisher, as its command line has them."""
    text = f",cipher={mode}"
    if mode != "clear":
        text += f",key={key_path}"
    if padded is not None:
        text += f",padded={padded}"
    if lowest is not None:
        text += f",lowest={lowest}"
    return text


@dataclass(frozen=True)
class Row:
    """One publisher."""

    text: str           # the relay's settings towards it, for the command line
    relay: Settings     # the same, for the mirrors
    usual: Settings     # its own, unless a script has others


class Stage:
    routes = None    # publisher to actor, once learnt; the same for every relay

    def __init__(self, program, folder, book):
        self.program, self.folder, self.book = program, folder, book
        self.publishers = []
        self.fronts = []
        self.front_wires = []       # also of fronts that have left
        self.settled = set()        # wires whose verdict has been held against the counts
        self.counts = Counter()     # as they were then
        self.relay = None
        self.fronts_settings = Settings()

    async def start(self, rows, fronts=Settings(), retry=15, ping=2000, opening=1500):
        """`fronts` are the relay's settings towards all fronts, and usually theirs."""
        self.fronts_settings = fronts
        texts = []
        for index, row in enumerate(rows):
            publisher = Publisher(index, self.book, Script(row.usual), row.relay)
            await publisher.start(PUBLISHER_IP)
            self.publishers.append(publisher)
            texts.append("%s:%d" % publisher.address + row.text)
        words = ["--retry-ms", str(retry), "--ping-ms", str(ping),
                 "--opening-ms", str(opening), "--card", "x25519",
                 "--fronts-cipher", fronts.mode]
        if fronts.padded:
            words.append("--padded-fronts")
        if fronts.mode != "clear":
            words += ["--fronts-key", key_path(self.folder, fronts.key)]
        self.relay = Relay(self.program, self.folder)
        await self.relay.start(words, texts)

    async def stop(self):
        for front in self.fronts:
            await front.close()
            self.book.wrong += [(None, page) for _, page in front.strays]
        if self.relay is not None and self.relay.process is not None:
            await self.relay.stop()
        for publisher in self.publishers:
            await publisher.stop()

    async def front(self, settings=None, **more):
        """A front that has connected; not necessarily open."""
        front = Front(settings or self.fronts_settings, other=self.fronts_settings, **more)
        await front.connect(self.relay.address, FRONT_IP)
        self.fronts.append(front)
        self.front_wires.append(front.wire)
        return front

    async def open_front(self, settings=None, **more):
        """A front whose opening is over, well or not."""
        front = await self.front(settings, **more)
        await front.opened()
        return front

    async def leave(self, front):
        await front.close()
        self.book.wrong += [(None, page) for _, page in front.strays]
        self.fronts.remove(front)

    async def all_open(self, indexes=range(PUBLISHERS)):
        for index in indexes:
            await self.reach(index)

    async def reach(self, index):
        """Waits until the publisher's usual connection is open."""
        usual = self.publishers[index].usual
        for _ in range(int(PATIENCE / 0.01)):
            if any(running is usual and wire.opened.is_set()
                   for wire, running in self.publishers[index].wires.items()):
                return True
            await asyncio.sleep(0.01)
        return False

    # ---- what the relay must have counted

    @property
    def wires(self):
        """Those of all connections so far."""
        return self.front_wires + [wire for publisher in self.publishers
                                   for wire in publisher.all_wires]

    def _verdicts(self):
        """Of connections that ended since the counts were last looked at.

        One that we ended without damage cannot have been refused.
        """
        new = [wire for wire in self.wires if wire.done.is_set() and wire not in self.settled]
        return new, [foretell(wire) for wire in new
                     if wire.ended_by_other or wire.damage or wire.link.is_twisted]

    async def settle(self, check, keys=False):
        """One case: the counts grew since the last time as the mirrors foretell.

        With `keys`, every ciphered Handshake that could not be read was so by its key.
        """
        loop = asyncio.get_running_loop()
        until = loop.time() + 2
        while True:
            wires, verdicts = self._verdicts()
            counts = await self.relay.counts()
            wrong = differences(self.counts, counts, verdicts, keys)
            if not wrong or loop.time() > until:
                break
            # It may close a connection before it counts it.
            await asyncio.sleep(0.02)
        self.settled.update(wires)
        self.counts = counts
        check.that(not wrong, "counts: " + "; ".join(wrong))

    # ---- asking

    def actor(self, index, attempt):
        if Stage.routes:
            return Stage.routes[index]
        return index + attempt

    async def learn_routes(self, front):
        """Finds out whether an actor always leads to the same publisher."""
        found = {}
        actors = list(range(PUBLISHERS)) * 4
        random.shuffle(actors)
        for actor in actors:
            payload = self.book.request()
            if self.book.judge(payload, await front.ask(actor, payload)):
                found.setdefault(actor, set()).add(self.book.where[payload])
        reached = {next(iter(places)): actor for actor, places in found.items()
                   if len(places) == 1}
        Stage.routes = reached if len(reached) == PUBLISHERS else None
        return found

    async def ask(self, front, index=None, size=40, answer_size=40, payload=None):
        """Asks until this publisher, any if None, has answered; True if rightly."""
        loop = asyncio.get_running_loop()
        until, attempt = loop.time() + PATIENCE, 0
        while loop.time() < until:
            request = payload if payload is not None else \
                self.book.request(size, answer_size)
            self.book.where.pop(request, None)
            answer = await front.ask(self.actor(index or 0, attempt), request, PATIENCE)
            right = self.book.judge(request, answer)
            if right and index in (None, self.book.where.get(request)):
                return True
            if answer is None and front.wire.done.is_set():
                return False
            # The relay may not have seen the opening's end yet. Without fixed
            # routes, tasks in step with each other could miss their publishers.
            await asyncio.sleep(random.random() * 0.01)
            attempt += 1
        return False

    async def ask_until_hit(self, front, index, script, size=40, answer_size=40):
        """Asks until the script has got a request; True if its right page arrived.

        None if no request came. The request may have been another task's, if
        the relay sends them to publishers in turn.
        """
        loop = asyncio.get_running_loop()
        until, attempt = loop.time() + PATIENCE, 0
        while not script.hit.is_set() and loop.time() < until:
            request = self.book.request(size, answer_size)
            answer = await front.ask(self.actor(index, attempt), request, PATIENCE)
            self.book.judge(request, answer)
            if not script.hit.is_set():
                await asyncio.sleep(random.random() * 0.01)
            attempt += 1
        if not script.hit.is_set():
            return None
        first = script.requests[0]
        while first not in self.book.verdicts and loop.time() < until + PATIENCE:
            await asyncio.sleep(0.005)
        return self.book.verdicts.get(first, False)

    # ---- one connection of a publisher by a script

    async def play(self, index, script):
        """Lets the next connection follow the script; True once it is open."""
        self.publishers[index].use(script)
        await first_of(PATIENCE, script.taken)
        if not script.taken.is_set():
            return False
        await first_of(PATIENCE, script.wire.opened, script.wire.done)
        return script.wire.opened.is_set()

    @staticmethod
    async def ended(script, limit=PATIENCE):
        """True if the relay has ended the script's connection."""
        return await Stage.over(script, limit) and script.wire.ended_by_other

    @staticmethod
    async def over(script, limit=PATIENCE):
        if script.wire is None:
            return False
        await first_of(limit, script.wire.done)
        return script.wire.done.is_set()

    @staticmethod
    async def refused(script, want=None, limit=PATIENCE):
        """True if the relay has ended it and had to, by this number or word if given."""
        return await Stage.ended(script, limit) and foretell(script.wire).by(want)

    @staticmethod
    async def refused_front(front, want=None, limit=PATIENCE):
        return await front.ended(limit) and foretell(front.wire).by(want)

    @staticmethod
    def drop(script):
        if script.wire is not None and not script.wire.done.is_set():
            script.wire.abort()


async def spread(jobs, indexes, check):
    """Runs jobs, each a coroutine function of a publisher's index, side by side."""
    left = deque(jobs)

    async def worker(index):
        while left and not check.hopeless:
            await left.popleft()(index)

    await asyncio.gather(*[worker(index) for index in indexes])
