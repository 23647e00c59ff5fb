"""Keys and settings that the program must refuse at its start; silence in the opening."""

import asyncio
import os

from .front import first_of
from .ground import FRONT_KEY, KEY
from .link import MODES, Settings
from .mirror import UNOPENED
from .publisher import Script
from .relay import Relay, key_file, key_path
from .report import Check
from .stage import PUBLISHER_IP, options


def _unfit_keys(folder):
    """Names of files that hold no fit key: what the relay must say, and the file."""
    return {
        "of 31 bytes": ("(36)", key_file(folder, "short", os.urandom(31).replace(b"\0", b"k"))),
        "of no bytes": ("(36)", key_file(folder, "empty", b"")),
        "of 4,097 bytes": ("(36)", key_file(folder, "long", b"k" * 4097)),
        "with four zeros in front": ("(36)", key_file(folder, "zeros", bytes(4) + b"k" * 40)),
        "with rights for others": ("rights", key_file(folder, "others", KEY, 0o604)),
        "with rights for the group": ("rights", key_file(folder, "group", KEY, 0o640)),
        "that is not there": ("No such file", os.path.join(folder, "nowhere")),
        "that is a folder": ("no regular file", folder),
    }


async def refused_settings(ground):
    check = Check("unfit keys and settings are refused at the start")
    good = key_path(ground.folder, KEY)
    cases = []
    for name, (words, path) in _unfit_keys(ground.folder).items():
        fronts = ["--fronts-cipher", "either", "--fronts-key", path]
        cases += [(f"a publisher's key {name}", words, [], options("only", path)),
                  (f"a front key {name}", words, fronts, "")]
    short = os.path.join(ground.folder, "short")
    cases += [
        ("a cipher without a key", "needs a key", [], ",cipher=only"),
        ("fronts with a cipher but no key", "needs a key", ["--fronts-cipher", "only"], ""),
        ("an unknown mode", "none of clear, only and either", [], f",cipher=maybe,key={good}"),
        ("a lowest version of 3", "(30)", [], ",lowest=3"),
        ("a lowest version of 3 beside a short key: the key comes first", "(36)", [],
         options("only", short, lowest=3)),
    ]
    await asyncio.gather(*[_refused(ground, check, *case) for case in cases])
    return (check,)


async def _refused(ground, check, name, words, fronts, text):
    relay = Relay(ground.program, ground.folder)
    # Port 9 of this machine: nothing needs to be there.
    publishers = [f"{PUBLISHER_IP}:9{text}"] + [f"{PUBLISHER_IP}:9"] * 7
    await relay.spawn(["--card", "x25519", *fronts], publishers)
    code = await relay.exit_code(3)
    # A usage page may follow, which has many words.
    said = relay.words().partition("\n")[0]
    check.that(code == 1 and words in said, f"{name}: exit code {code}; {said!r}, not {words!r}")
    await relay.stop()


# Bytes of an opening that are let through: none, parts of a Nonce, all of it,
# parts of a Handshake inside its blocks and between them.
KEPT = (0, 1, 4, 11, 12, 40, 75, 76, 77, 80, 88, 91, 92, 93, 100, 108, 109, 119)


async def silence(ground):
    check = Check("silence in the opening ends the connection")
    fronts = Settings("either", FRONT_KEY)
    async with ground.stage([ground.row("only")] * 8, fronts=fronts, opening=600) as stage:
        await stage.all_open()
        for turn, mode in enumerate(MODES):
            publishers = enumerate(KEPT[turn * 6:turn * 6 + 6])
            await asyncio.gather(*[_silent_publisher(stage, check, *row) for row in publishers],
                                 *[_silent_front(stage, check, mode, kept) for kept in KEPT])
        await stage.settle(check)
    return (check,)


async def _silent_publisher(stage, check, index, kept):
    script = Script(Settings("only", KEY), damage=_only(kept))
    stage.publishers[index].use(script)
    await first_of(2.0, script.taken)
    check.that(await stage.refused(script, UNOPENED, 2.0),
               f"publisher {index} stays linked that sent {kept} bytes")
    stage.drop(script)


async def _silent_front(stage, check, mode, kept):
    front = await stage.front(Settings(mode, FRONT_KEY), damage=_only(kept))
    check.that(await stage.refused_front(front, UNOPENED, 2.0),
               f"a {mode} front stays linked that sent {kept} bytes")
    await stage.leave(front)


def _only(count):
    """Lets so many bytes of a connection through, and no more."""
    left = [count]

    def damage(_, data):
        data = data[:left[0]]
        left[0] -= len(data)
        return data

    return damage
