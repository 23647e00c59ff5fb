"""Openings: which settings meet clear, which ciphered, and which not at all."""

import functools
import os

from .check_self import expected
from .ground import FRONT_KEY, KEY
from .link import MODES, OFFERS, VERSIONS, Settings, Twist, client_takes
from .publisher import Script
from .report import Check
from .stage import spread

BYTES = (0, 1, 2, 3, 255)


def kind_of(link):
    return "ciphered" if link.ciphered else "clear"


async def settings_by_versions(ground):
    honest = Check("relay to publishers: settings of both sides by versions")
    answers = Check("relay to publishers: every answered encryption byte by versions")
    fronts = Check("fronts to relay: settings of both sides by versions")
    asked = Check("fronts to relay: every asked encryption byte by versions")
    ids = Check("a strange KeyID: ignored where clear is chosen, else refused")
    nonces = Check("the relay's Nonces hold what the settings say")
    for mode in MODES:
        async with ground.stage([ground.row(mode)] * 8, fronts=Settings(mode, FRONT_KEY)) as stage:
            front = await stage.open_front()
            await stage.all_open()
            if stage.routes is None:
                await stage.learn_routes(front)
            await _publisher_cases(stage, front, mode, honest, answers, ids, nonces)
            await _front_cases(stage, mode, fronts, asked, ids, nonces)
    return honest, answers, fronts, asked, ids, nonces


async def _publisher_cases(stage, front, mode, honest, answers, ids, nonces):
    jobs = [functools.partial(_honest_publisher, stage, front, honest, nonces, mode, my_mode, version)
            for my_mode in MODES for version in VERSIONS]
    await spread(jobs, range(8), honest)
    jobs = [functools.partial(_answered_byte, stage, front, answers, mode, byte, version)
            for byte in BYTES for version in VERSIONS]
    await spread(jobs, range(8), answers)
    await stage.settle(answers)
    jobs = [functools.partial(_strange_id, stage, front, ids, mode, byte, version)
            for byte in (0, 1) for version in VERSIONS]
    await spread(jobs, range(8), ids)
    await stage.settle(ids)


async def _honest_publisher(stage, front, check, nonces, mode, my_mode, version, index):
    script = Script(Settings(my_mode, KEY, version))
    opened = await stage.play(index, script)
    want = expected(mode, my_mode)
    text = f"relay {mode}, publisher {my_mode}, version {version}"
    if want is None:
        refused = script.wire is not None and script.wire.fault
        check.that(not opened and refused and refused.number == 9, text + ": opened")
    else:
        talks = opened and await _talks(stage, front, index, script)
        link = script.wire.link if opened else None
        check.that(talks and kind_of(link) == want and link.version == version,
                   f"{text}: {kind_of(link) if opened else 'not opened'}, talks {talks}")
    if script.wire is not None and script.wire.link.theirs is not None:
        judge_nonce(nonces, script.wire.link.theirs, OFFERS[mode], mode != "clear", KEY, 2, text)
    stage.drop(script)


async def _talks(stage, front, index, script):
    """Some requests of different sizes through this very connection."""
    if not await stage.ask_until_hit(front, index, script):
        return False
    # Long enough to be told apart: other tasks ask at the same time.
    for size, answer_size in ((24, 0), (25, 2), (33, 300), (3000, 5)):
        if not await stage.ask(front, index, size, answer_size):
            return False
    return not script.wire.done.is_set()


def judge_nonce(check, nonce, encryption, with_cipher, key, version, text):
    good = nonce.size == 60 and nonce.flags == 0 and nonce.version == version
    good = good and nonce.encryption == encryption and any(nonce.random)
    if with_cipher:
        good = good and nonce.key_id == key[:4] and any(nonce.point)
    else:
        good = good and not any(nonce.key_id) and not any(nonce.point)
    check.that(good, f"{text}: {nonce}")


async def _answered_byte(stage, front, check, mode, byte, version, index):
    script = Script(Settings("either", KEY, version), Twist(encryption=byte))
    opened = await stage.play(index, script)
    text = f"relay {mode}, answered {byte}, version {version}"
    if client_takes(OFFERS[mode], byte):
        good = opened and await _talks(stage, front, index, script)
    else:
        good = await stage.refused(script, 9) and not opened
    check.that(good, f"{text}: opened {opened}")
    stage.drop(script)


async def _strange_id(stage, front, check, mode, byte, version, index):
    """A KeyID counts only where the cipher is chosen."""
    twist = Twist(encryption=byte, key_id=os.urandom(4), point=os.urandom(32))
    script = Script(Settings("either", KEY, version), twist)
    opened = await stage.play(index, script)
    if byte == 0 and client_takes(OFFERS[mode], 0):
        good = opened and await _talks(stage, front, index, script)
    else:
        good = await stage.refused(script, 9) and not opened
    check.that(good, f"relay {mode}, answered {byte}, version {version}: opened {opened}")
    stage.drop(script)


async def _front_cases(stage, mode, fronts, asked, ids, nonces):
    for my_mode in MODES:
        for version in VERSIONS:
            await _one_front(stage, fronts, nonces, mode, Settings(my_mode, FRONT_KEY, version),
                             None, expected(my_mode, mode), version)
    for byte in BYTES:
        for version in VERSIONS + (3, 255):
            for size in _nonce_sizes(version):
                twist = Twist(encryption=byte, version=version, nonce_size=size)
                await _one_front(stage, asked, nonces, mode, Settings("either", FRONT_KEY),
                                 twist, _by_byte(mode, byte), min(version, 2))
        want = _by_byte(mode, byte)
        twist = Twist(encryption=byte, key_id=os.urandom(4))
        await _one_front(stage, ids, nonces, mode, Settings("either", FRONT_KEY), twist,
                         "clear" if want == "clear" else None, 2)
    await stage.settle(asked)


def _nonce_sizes(version):
    """Short ones are allowed below version 2, longer ones always."""
    return (60, 28, 59) if version < 2 else (60, 75)


def _by_byte(mode, byte):
    """The table of the rules, from the server's side."""
    refused = {"clear": byte == 1, "only": byte == 0, "either": False}[mode]
    if refused:
        return None
    return "clear" if mode == "clear" or byte == 0 else "ciphered"


async def _one_front(stage, check, nonces, mode, settings, twist, want, version):
    if check.hopeless:
        return
    front = await stage.front(settings, twist=twist)
    opened = await front.opened()
    text = f"relay {mode}, {settings.mode} {settings.version} {twist}"
    if want is None:
        good = not opened and await stage.refused_front(front, 9)
        check.that(good, f"{text}: opened {opened}")
    else:
        link = front.link
        talks = opened and await stage.ask(front) and await stage.ask(front, None, 30, 1000)
        check.that(talks and kind_of(link) == want and link.version == version,
                   f"{text}: opened {opened} {kind_of(link)}, talks {talks}, {front.wire.fault}")
        if link.theirs is not None:
            ciphered = want == "ciphered"
            judge_nonce(nonces, link.theirs, int(ciphered), ciphered, FRONT_KEY, version, text)
    await stage.leave(front)


async def lowest_versions(ground):
    check = Check("relay to publishers: the lowest version")
    rows = [ground.row("only" if index < 3 else "clear", lowest=index % 3) for index in range(6)]
    rows += [ground.row("either", lowest=2)] * 2
    async with ground.stage(rows) as stage:
        front = await stage.open_front()
        await stage.all_open()
        for index, row in enumerate(rows):
            for version in VERSIONS:
                script = Script(Settings(row.relay.mode, KEY, version))
                opened = await stage.play(index, script)
                if version >= row.relay.lowest:
                    good = opened and await _talks(stage, front, index, script)
                else:
                    good = not opened and await stage.refused(script, 24)
                check.that(good, f"lowest {row.relay.lowest}, version {version}: opened {opened}")
                stage.drop(script)
        await _order(stage, check)
        await stage.settle(check)
    return (check,)


async def _order(stage, check):
    """Of several faults of one Nonce the first in the rules' order counts.

    At publisher 2 the relay wants the cipher and version 2.
    """
    strange = dict(key_id=b"\xff" * 4, encryption=0, version=1)
    for number, twist in ((7, Twist(nonce_size=27, time_shift=100, **strange)),
                          (8, Twist(time_shift=100, **strange)),
                          (24, Twist(**strange)),
                          (9, Twist(encryption=0, version=3)),
                          (9, Twist(key_id=b"\xff" * 4, version=3))):
        script = Script(Settings("only", KEY), twist)
        opened = await stage.play(2, script)
        check.that(not opened and await stage.refused(script, number), f"{number} comes first: {twist}")
        stage.drop(script)


async def sizes_and_clocks(ground):
    """Bodies of Nonce and Handshake on either side of a line."""
    check = Check("openings on either side of a line: sizes, versions, clocks, flags")
    fronts = Settings("only", FRONT_KEY)
    async with ground.stage([ground.row("only")] * 8, fronts=fronts) as stage:
        front = await stage.open_front()
        await stage.all_open()
        jobs = [functools.partial(_line_publisher, stage, front, check, *case)
                for case in _lines(answered=True)]
        await spread(jobs, range(8), check)
        await stage.settle(check)
        for number, version, twist in _lines(answered=False):
            await _line_front(stage, check, number, version, twist)
        await stage.settle(check)
    return (check,)


def _lines(answered):
    """The number that refuses it, None if it opens; our version; what we write."""
    cases = [(None, 0, Twist(nonce_size=28)), (None, 1, Twist(nonce_size=28)),
             (7, 0, Twist(nonce_size=27)), (7, 1, Twist(nonce_size=27)),
             (7, 2, Twist(nonce_size=28)), (7, 2, Twist(nonce_size=59)),
             (None, 2, Twist(nonce_size=60)), (None, 2, Twist(nonce_size=61)),
             (None, 2, Twist(nonce_size=1007)), (3, 2, Twist(nonce_size=1008)),
             (7, 2, Twist(nonce_size=0)),
             # A second may pass between our clock and the relay's look at it.
             (None, 2, Twist(time_shift=28)), (None, 2, Twist(time_shift=-28)),
             (8, 2, Twist(time_shift=33)), (8, 2, Twist(time_shift=-33)),
             (8, 2, Twist(time_shift=-1000000)), (8, 2, Twist(time_shift=1000000))]
    cases += [(None, version, Twist(handshake_size=size))
              for version in VERSIONS for size in (*range(28, 48), 1006, 1007)]
    cases += [(7, 2, Twist(handshake_size=size)) for size in (0, 4, 27)]
    cases += [(3, 2, Twist(handshake_size=size)) for size in (1008, 1100)]
    # All bits of the flags but that of CRC-32C mean nothing.
    cases += [(None, version, Twist(flags=0xFFFFF7FF)) for version in VERSIONS]
    # A client may say any version and is answered ours; a server may not go beyond.
    cases += [(10 if answered else None, 2, Twist(version=version)) for version in (3, 4, 255)]
    return cases


async def _line_publisher(stage, front, check, number, version, twist, index):
    script = Script(Settings("only", KEY, version), twist)
    opened = await stage.play(index, script)
    if number is None:
        good = opened and await stage.ask_until_hit(front, index, script)
    else:
        good = await stage.refused(script, number)
    check.that(good, f"publisher, version {version}, {twist}: opened {opened}, not {number}")
    stage.drop(script)


async def _line_front(stage, check, number, version, twist):
    if check.hopeless:
        return
    front = await stage.front(Settings("only", FRONT_KEY, version), twist=twist)
    if number is None:
        good = await front.opened() and await stage.ask(front)
    else:
        good = await stage.refused_front(front, number) and not front.wire.opened.is_set()
    check.that(good, f"front, version {version}, {twist}: {front.wire.fault}, not {number}")
    await stage.leave(front)
