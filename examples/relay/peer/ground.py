"""What the checks share: the program, keys, and tallies over the whole run."""

import os
from contextlib import asynccontextmanager

from .book import Book
from .link import Settings
from .relay import key_path
from .report import Check
from .stage import Row, Stage, options

KEY = bytes(range(1, 49))
FRONT_KEY = bytes(range(101, 101 + 61))


def same_id(key):
    """Another key with the same first four bytes."""
    return key[:4] + os.urandom(len(key) - 4)


class Ground:
    def __init__(self, program, folder):
        self.program, self.folder = program, folder
        self.book = Book()
        self.connections = 0
        self.faults = []       # what our honest sides had to refuse
        self.points = []
        self.randoms = []
        self.crashes = []      # relays that ended by themselves, or a thread of theirs
        self.breaks = []       # errors of this peer's own code
        self.numbers = Check("every relay's counts are what its connections make them, to the end")

    def row(self, mode="clear", usual=None, key=KEY, padded=None, lowest=None):
        """A publisher, by the relay's settings towards it and its own."""
        text = options(mode, key_path(self.folder, key), padded, lowest)
        relay = Settings(mode, key, lowest=lowest or 0, padded=padded == "yes")
        return Row(text, relay, usual or Settings(mode, key))

    def note_break(self, _, context):
        """What asyncio would only print."""
        self.breaks.append(repr(context.get("exception") or context["message"]))

    @asynccontextmanager
    async def stage(self, rows, **more):
        stage = Stage(self.program, self.folder, self.book)
        try:
            await stage.start(rows, **more)
            yield stage
            await stage.settle(self.numbers)
        finally:
            self._tally(stage)
            await stage.stop()
            self._read_log(stage.relay)

    def _tally(self, stage):
        relay = stage.relay
        if relay is not None and relay.process is not None and not relay.is_running():
            self.crashes.append(f"exit code {relay.process.returncode}: {relay.words()}")
        self.breaks += [repr(wire.broken) for wire in stage.wires if wire.broken is not None]
        for publisher in stage.publishers:
            self.connections += len(publisher.all_wires)
            self.faults += publisher.faults
            self.points += [point for point in publisher.points if any(point)]
            self.randoms += publisher.randoms

    def _read_log(self, relay):
        # A thread may end without its process.
        if relay is not None and relay.log is not None and "panicked" in relay.words():
            self.crashes.append(relay.words())
