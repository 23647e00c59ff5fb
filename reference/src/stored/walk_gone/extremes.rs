//! The smallest and largest front numbers, and those at which narrower or
//! unsigned numbers would turn over.

use super::TOP;
use crate::stored::walk_play::{Case, Play};
use crate::table::Side;

pub const CASES: &[Case] = &[(1, extremes), (7, extremes), (TOP - 3, extremes)];

const NUMBERS: [i64; 10] = [
    -1,
    i64::MIN,
    i64::MAX,
    1,
    i64::MIN + 1,
    i64::MAX - 1,
    1 << 31,
    -(1 << 31) - 1,
    1 << 32,
    255,
];

/// All at one publisher, from two links, one of which has the publisher's
/// number. One end's peer is gone, some are asked again, and so is the other's.
fn extremes(play: &mut Play) {
    for (side, link, publisher) in [(Side::Publisher, 31, 0), (Side::Front, 7, 6)] {
        for (turn, &number) in NUMBERS.iter().enumerate() {
            play.ask(link, number, publisher);
            if turn % 2 == 0 {
                play.ask(publisher, number, publisher);
            }
        }
        let peer = |side: Side| [side.of(link, publisher)];
        play.gone(side, peer(side));
        for number in [i64::MIN, -1, i64::MAX] {
            play.cancel((link, number));
            play.ask(link, number, publisher);
            play.ask(link, number, publisher);
        }
        play.gone(side.other(), peer(side.other()));
        play.gone(Side::Front, [publisher]);
    }
}
