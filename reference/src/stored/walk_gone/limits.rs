//! Numbers within and beyond each side: links 0 to 31, publishers 0 to 7. What
//! is refused frees nothing.

use super::TOP;
use crate::stored::walk_play::{Case, Play};
use crate::table::Side;

pub const CASES: &[Case] = &[
    (1, every_number),
    (7, no_requests),
    (TOP - 3, refused_and_still_answered),
];

/// Every number beyond a side has low bits that are a peer with requests; all
/// of them are still there afterwards.
fn every_number(play: &mut Play) {
    for side in Side::BOTH {
        (0..32).for_each(|link| play.fresh(link, link % 8));
        match side {
            Side::Front => play.gone(side, (0..=255).rev()),
            Side::Publisher => play.gone(side, (8..=255).chain(0..8)),
        }
    }
}

fn no_requests(play: &mut Play) {
    for side in Side::BOTH {
        play.gone(side, [0, 1, 6, 7, 8, 9, 15, 16, 30, 31, 32, 33]);
        play.gone(side, [63, 64, 127, 128, 254, 255]);
    }
}

/// The number of a link with requests, as a publisher's: refused, though the
/// link would be found; and numbers beyond both.
fn refused_and_still_answered(play: &mut Play) {
    for link in [8, 9, 15, 16, 24, 31] {
        play.fresh_many(3, link, link % 8);
        play.fresh(link % 8, (link + 1) % 8);
        let requests = play.of_peer(Side::Front, link);
        play.gone(Side::Publisher, [link]);
        play.cancel(requests[0].front);
        play.gone(Side::Front, [32, link + 32, link | 128]);
        play.reply(requests[2].publisher);
        play.gone(Side::Publisher, [link, 8]);
        play.gone(Side::Front, [link, link]);
    }
    play.gone(Side::Publisher, 0..8);
}
