"""Openings with wrong keys, strange Nonces and damaged Handshakes."""

import functools
import os
import random

from .cipher import BLOCK
from .damage import Once, change_nonce, flip, lose, swap, twice
from .ground import FRONT_KEY, KEY, same_id
from .link import OWN_VERSION, VERSIONS, Settings, Twist
from .mirror import BAD_POINT, UNOPENED, foretell
from .publisher import Script
from .report import Check
from .stage import spread

DAMAGED = range(1, 8)     # publishers; number 0 stays whole

SMALL_ORDER = [bytes.fromhex(text) for text in (
    "00" * 32,
    "01" + "00" * 31,
    "e0eb7a7c3b41b8ae1656e3faf19fc46ada098deb9c32b1fd866205165f49b800",
    "5f9c95bca3508c24b1d0b1559c83ef5b04445cc4581c8e86d8224eddd09f1157",
    "ec" + "ff" * 30 + "7f",
    "ed" + "ff" * 30 + "7f",
    "ee" + "ff" * 30 + "7f",
)]


def refused_opening(stage, check, text, version=OWN_VERSION, twist=None, damage=None, want=None):
    """A job: the relay refuses a publisher, and no request comes through.

    If it is our Nonce that is wrong, the relay does not even send a Handshake.
    Else its Handshake opens our side, which goes on answering Pings.
    """

    async def job(index):
        script = Script(Settings("only", KEY, version), twist or Twist(), damage=damage)
        opened = await stage.play(index, script)
        refused = await stage.refused(script, want)
        early = refused and foretell(script.wire).at_nonce
        check.that(refused and not script.requests and not (opened and early),
                   f"{text}: refused {refused}, opened {opened}, {len(script.requests)} requests")
        stage.drop(script)

    return job


def refused_front(stage, check, text, version=OWN_VERSION, key=FRONT_KEY, twist=None, damage=None,
                  may_open=False, want=None):
    """A job: the relay refuses a front."""

    async def job(_):
        front = await stage.front(Settings("only", key, version), twist=twist, damage=damage)
        refused = await stage.refused_front(front, want)
        opened = front.wire.opened.is_set()
        check.that(refused and (may_open or not opened),
                   f"front, {text}: refused {refused}, opened {opened}")
        await stage.leave(front)

    return job


async def _run(stage, check, jobs, **more):
    await spread(jobs, DAMAGED, check)
    await stage.settle(check, **more)


async def wrong_keys(stage, _):
    check = Check("keys that differ behind the first four bytes")
    jobs = []
    for version in VERSIONS:
        # The smallest difference: one bit of the last byte, or one byte more.
        for key in [same_id(KEY) for _ in range(8)] + [flip(47, 0)(KEY), KEY + b"\0", KEY[:-1]]:
            jobs.append(refused_opening(stage, check, f"version {version}, {len(key)} bytes", version,
                                        Twist(out_key=key)))
        for key in (same_id(FRONT_KEY), FRONT_KEY + b"\0", FRONT_KEY[:-1]):
            jobs.append(refused_front(stage, check, f"version {version}", version, key))
        jobs += [functools.partial(_unreadable, stage, check, version)] * 8
    await _run(stage, check, jobs, keys=True)
    return (check,)


async def _unreadable(stage, check, version, index):
    """With another key the relay's Handshake must be noise to us."""
    script = Script(Settings("only", same_id(KEY), version), Twist())
    opened = await stage.play(index, script)
    fault = script.wire.fault if script.wire else None
    if fault is None and not opened:
        # On a busy machine the relay may give up before its Handshake comes.
        script = Script(script.settings, Twist())
        opened = await stage.play(index, script)
        fault = script.wire.fault if script.wire else None
    check.that(not opened and fault and fault.number in (1, 2, 3, 4, 5, 6),
               f"version {version}: opened {opened}, {fault}")
    stage.drop(script)


async def key_ids(stage, _):
    check = Check("KeyIDs: zero, strange, one bit off")
    jobs = []
    for job, key in ((refused_opening, KEY), (refused_front, FRONT_KEY)):
        one_bit_off = [flip(bit // 8, bit % 8)(key[:4]) for bit in range(32)]
        for key_id in [bytes(4), b"\xff" * 4, os.urandom(4), *one_bit_off]:
            jobs.append(job(stage, check, f"KeyID {key_id.hex()}", twist=Twist(key_id=key_id), want=9))
    await _run(stage, check, jobs)
    return (check,)


# ---- Nonces


def _flipped_bits():
    """All of a Nonce packet's header, and two of every other byte."""
    for byte in range(76):
        for bit in range(8) if byte < 12 else random.sample(range(8), 2):
            yield byte, bit


def _flipped_number(byte, bit):
    """What refuses a Nonce packet of 76 bytes with this bit flipped."""
    if byte < 4:
        length = 76 ^ 1 << 8 * byte + bit
        if length < 16:
            return 1
        if length >= 1024:
            return 3
        # The sum is looked for elsewhere, or still awaited.
        return 6 if length < 76 else UNOPENED
    return 4 if byte < 8 else 5 if byte < 12 else 6


async def flipped_nonces(stage, _):
    """Damage that nobody covers up: the packet's own rules find it."""
    there = Check("a bit flipped at every byte of a publisher's Nonce")
    back = Check("a bit flipped at every byte of a front's Nonce")
    for job, check in ((refused_opening, there), (refused_front, back)):
        jobs = [job(stage, check, f"byte {byte}, bit {bit}", random.choice(VERSIONS),
                    damage=Once("nonce", flip(byte, bit)), want=_flipped_number(byte, bit))
                for byte, bit in _flipped_bits()]
        await _run(stage, check, jobs)
    return there, back


async def changed_nonces(stage, front):
    """Both sides then know different Nonces, so their keys differ.

    With another point (bytes 28 to 59) nobody here knows the relay's keys, so
    only bounds hold there: one of the numbers 1, 3, 4, 5 and 6, or a wait.
    """
    there = Check("a publisher's Nonce changed on the way, every byte")
    back = Check("a front's Nonce changed on the way, every byte")
    jobs = []
    for byte in range(60):
        for bit in range(8) if byte in (5, 59) else (random.randrange(7),):
            jobs.append(_changed_answer(stage, front, there, byte, bit))
    await _run(stage, there, jobs)
    # A client's encryption byte and version have several values of one meaning.
    jobs = [refused_front(stage, back, f"byte {byte}", want=9 if byte < 4 else None,
                          damage=Once("nonce", change_nonce(byte, random.randrange(7))))
            for byte in (*range(4), *range(8, 60))]
    await _run(stage, back, jobs)
    return there, back


def _changed_answer(stage, front, check, byte, bit):
    damage, text = Once("nonce", change_nonce(byte, bit)), f"byte {byte}, bit {bit}"
    # Flags are ignored, and so is the topmost bit of a point.
    if byte in (6, 7) or (byte, bit) == (59, 7):
        return functools.partial(_still_opens, stage, front, check, damage, text)
    want = None
    if byte < 5:
        want = 9     # KeyID, encryption
    elif byte == 5 and bit != 1:
        want = 10    # bit 1 makes version 0 of version 2
    # Our side goes on though the relay's Handshake is noise to it: it is the
    # relay that has to find out.
    return refused_opening(stage, check, text, twist=Twist(deaf=True), damage=damage, want=want)


async def _still_opens(stage, front, check, damage, text, index):
    script = Script(Settings("only", KEY), damage=damage)
    opened = await stage.play(index, script)
    check.that(opened and await stage.ask_until_hit(front, index, script), f"{text}: opened {opened}")
    stage.drop(script)


async def small_order_points(stage, front):
    """The rules leave it to the card whether they are taken; those refused are counted so."""
    check = Check("points of small order, from a publisher and a front: taken or counted as bad")
    taken = []

    async def publisher(point, index):
        script = Script(Settings("only", KEY), Twist(point=point))
        opened = await stage.play(index, script)
        right = await stage.ask_until_hit(front, index, script) if opened else None
        refused = not opened and await stage.refused(script, BAD_POINT)
        taken.append(bool(right))
        check.that(right or refused, f"{point.hex()}: opened {opened}, answered {right}")
        stage.drop(script)

    async def client(point, _):
        mine = await stage.open_front(Settings("only", FRONT_KEY), twist=Twist(point=point))
        opened = mine.wire.opened.is_set()
        right = opened and await stage.ask(mine)
        refused = not opened and await stage.refused_front(mine, BAD_POINT)
        taken.append(bool(right))
        check.that(right or refused, f"front, {point.hex()}: opened {opened}, answered {right}")
        await stage.leave(mine)

    await _run(stage, check, [functools.partial(job, point) for job in (publisher, client)
                              for point in SMALL_ORDER])
    check.note = f"{taken.count(True)} taken"
    return (check,)


# ---- Handshakes


async def wrong_vectors(stage, _):
    """Each bit of a vector is a bit of the first block that comes out."""
    check = Check("a wrong starting vector, of a publisher and of a front")
    jobs = []
    for byte in range(BLOCK):
        for bit in (0, random.randrange(1, 7), 7):
            twist = Twist(vector_mask=flip(byte, bit)(bytes(BLOCK)))
            for job in (refused_opening, refused_front):
                jobs.append(job(stage, check, f"byte {byte}, bit {bit}", random.choice(VERSIONS),
                                twist=twist))
    await _run(stage, check, jobs)
    return (check,)


async def others_bytes(stage, front):
    """Right bytes of another connection, or of the other direction."""
    check = Check("a Handshake from another connection, or the relay's own sent back")
    taken = []

    def keep(name, data):
        if name == "handshake":
            taken.append(data)
        return data

    async def old(version, index):
        script = Script(Settings("only", KEY, version), damage=keep)
        await stage.play(index, script)
        await stage.ask_until_hit(front, index, script)
        stage.drop(script)
        await refused_opening(stage, check, "old bytes", version,
                              damage=Once("handshake", lambda data: taken[-1]))(index)

    async def own(version, index):
        script = Script(Settings("only", KEY, version), Twist())
        script.damage = Once("handshake", lambda data: script.wire.heard)
        await stage.play(index, script)
        refused = await stage.refused(script)
        check.that(refused and len(script.wire.heard) == 48, f"own bytes: refused {refused}")
        stage.drop(script)

    await _run(stage, check, [functools.partial(job, version) for job in (old, own)
                              for version in VERSIONS], keys=True)
    return (check,)


async def flipped_handshakes(stage, _):
    there = Check("a bit flipped at every byte of a publisher's Handshake")
    back = Check("a bit flipped at every byte of a front's Handshake")
    for job, check in ((refused_opening, there), (refused_front, back)):
        jobs = [job(stage, check, f"byte {byte}, bit {bit}",
                    damage=Once("handshake", flip(byte, bit)))
                for byte in range(48) for bit in random.sample(range(8), 2)]
        await _run(stage, check, jobs)
    return there, back


async def handshake_blocks(stage, _):
    check = Check("blocks of a Handshake lost, sent twice, exchanged; a word of 4 before it")
    jobs = []
    for name, change, count in (("lost", lose, 3), ("twice", twice, 3), ("exchanged", swap, 2)):
        for block in range(count):
            text = f"block {block} {name}"
            jobs.append(refused_opening(stage, check, text,
                                        damage=Once("handshake", change(block))))
            # A last block sent twice leaves the Handshake whole, so it opens first.
            jobs.append(refused_front(stage, check, text, damage=Once("handshake", change(block)),
                                      may_open=text == "block 2 twice"))
    # Words may stand only before the packets behind it: here one is a length.
    jobs += [job(stage, check, "a word before a Handshake", version, twist=Twist(early_word=True),
                 want=1) for job in (refused_opening, refused_front) for version in VERSIONS]
    await _run(stage, check, jobs)
    return (check,)
