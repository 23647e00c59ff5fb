"""Wrong keys, strange Nonces and damaged bytes: the link ends, nothing wrong arrives.

Publisher 0 stays whole through all of it and is asked all the time; the others
are damaged, one connection after another.
"""

import asyncio

from . import check_broken, check_damage, check_wrong
from .ground import FRONT_KEY
from .link import Settings
from .report import Check
from .stage import Stage

PARTS = (
    check_wrong.wrong_keys,
    check_wrong.key_ids,
    check_wrong.flipped_nonces,
    check_wrong.changed_nonces,
    check_wrong.wrong_vectors,
    check_wrong.others_bytes,
    check_wrong.flipped_handshakes,
    check_wrong.handshake_blocks,
    check_wrong.small_order_points,
    check_damage.flipped_answers,
    check_damage.flipped_requests,
    check_damage.blocks,
    check_damage.padding,
    check_broken.answers,
    check_broken.requests,
    check_broken.openings,
)


async def faults(ground):
    served = Check("the other publishers are served all the while")
    checks = []
    # Pings so rare that they end no link before its fault is found.
    async with ground.stage([ground.row("only")] * 8, fronts=Settings("only", FRONT_KEY),
                            ping=5000, opening=1200) as stage:
        front = await stage.open_front()
        await stage.all_open()
        steady = asyncio.ensure_future(_steady(stage, served))
        for part in PARTS:
            checks += await part(stage, front)
        served.that(not steady.done(), f"the asking broke off: {steady}")
        steady.cancel()
        served.that(stage.relay.is_running(), "the relay has ended")
    return (*checks, served)


async def _steady(stage, check):
    front = await stage.open_front()
    while True:
        payload = stage.book.request(40, 41)
        right = stage.book.judge(payload, await front.ask(stage.actor(0, check.cases), payload))
        # Without fixed routes a request may meet a damaged publisher.
        check.that(right or Stage.routes is None, "publisher 0 did not answer")
        await asyncio.sleep(0.01)
