"""The relay program as a process of its own."""

import asyncio
import os
import socket
import tempfile
from asyncio.subprocess import PIPE
from collections import Counter

PATIENCE = 4.0   # seconds until something that must happen counts as missing


def free_port(ip):
    with socket.socket() as probe:
        probe.bind((ip, 0))
        return probe.getsockname()[1]


def key_file(folder, name, key, mode=0o600):
    path = os.path.join(folder, name)
    with open(path, "wb") as file:
        file.write(key)
    os.chmod(path, mode)
    return path


def key_path(folder, key):
    """A file with this key, made when first asked for."""
    name = f"key-{len(key)}-{key[:8].hex()}"
    path = os.path.join(folder, name)
    return path if os.path.exists(path) else key_file(folder, name, key)


class Relay:
    def __init__(self, program, folder, ip="127.0.0.1"):
        self.program, self.folder = program, folder
        self.address = (ip, free_port(ip))
        self.process = None
        self.log = None

    async def spawn(self, options, publishers):
        self.log = tempfile.NamedTemporaryFile(dir=self.folder, prefix="relay-", delete=False)
        self.process = await asyncio.create_subprocess_exec(
            self.program, *options, "%s:%d" % self.address, *publishers,
            stdin=PIPE, stdout=PIPE, stderr=self.log)

    async def start(self, options, publishers):
        """Starts it and waits until it says that it listens."""
        await self.spawn(options, publishers)
        line = await self._line()
        if line != "listening on %s:%d" % self.address:
            await self.exit_code(1)
            raise RuntimeError(f"the relay says {line!r} first; {self.words()}")

    async def _line(self):
        line = await asyncio.wait_for(self.process.stdout.readline(), PATIENCE)
        return line.decode("utf-8", "replace").strip()

    async def counts(self):
        """Its counts by their words; those that it leaves out are 0."""
        self.process.stdin.write(b"counts\n")
        await self.process.stdin.drain()
        first, *words = (await self._line()).split()
        if first != "counts" or len(words) % 2:
            raise RuntimeError(f"no counts: {first} {words}")
        return Counter(dict(zip(words[::2], map(int, words[1::2]))))

    def is_running(self):
        return self.process.returncode is None

    def words(self):
        """What it has printed for people."""
        with open(self.log.name, "rb") as file:
            return file.read().decode("utf-8", "replace").strip()

    async def exit_code(self, limit):
        """Its exit code, or None if it still runs after so many seconds."""
        try:
            return await asyncio.wait_for(self.process.wait(), limit)
        except asyncio.TimeoutError:
            return None

    async def stop(self):
        if self.is_running():
            self.process.terminate()
        if await self.exit_code(2) is None:
            self.process.kill()
            await self.process.wait()
        self.process.stdin.close()
        self.log.close()
