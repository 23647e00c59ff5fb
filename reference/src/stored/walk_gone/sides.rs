//! A link and a publisher with the same number: one is gone, and the other's
//! requests stay, except for those that the two have with each other.

use super::TOP;
use crate::stored::walk_play::{Case, Play};
use crate::stored::walk_scripts::nth;
use crate::table::Side;

pub const CASES: &[Case] = &[
    (1, the_same_number),
    (TOP - 3, the_same_number),
    (7, only_with_each_other),
    (7, mirrored),
    (1, one_side_and_the_other_by_turns),
];

/// Link `number` has five requests and publisher `number` four, two of which
/// are the same; two more have nothing to do with either.
pub fn around(play: &mut Play, number: u8) {
    let [next, third, fifth] = [1, 3, 5].map(|step| (number + step) % 8);
    for (link, publisher) in [
        (third, next),
        (number, number),
        (number, next),
        (third, number),
        (next, third),
        (number, fifth),
        (number, number),
        (next, number),
        (number, third),
    ] {
        play.fresh(link, publisher);
    }
}

/// One is gone; what the other still has is listed, then the rest.
fn the_same_number(play: &mut Play) {
    for number in 0..8 {
        for side in Side::BOTH {
            around(play, number);
            play.gone(side, [number]);
            play.gone(side.other(), [number]);
            play.gone(side, [(number + 3) % 8, (number + 1) % 8]);
        }
    }
}

/// After one is gone, the other has none.
fn only_with_each_other(play: &mut Play) {
    for number in 0..8 {
        for side in Side::BOTH {
            play.fresh_many(1 + usize::from(number % 3), number, number);
            play.gone(side, [number]);
            play.gone(side.other(), [number]);
        }
    }
}

/// Two requests whose ends are each other's: link and publisher change places,
/// and one number is the front and the publisher number of both.
fn mirrored(play: &mut Play) {
    for turn in 0..4 {
        for (one, other) in [(0, 1), (7, 2), (3, 6)] {
            let number = nth(play.first, turn);
            play.ask(one, number, other);
            play.ask(other, number, one);
            play.gone(Side::BOTH[(turn % 2) as usize], [one]);
            // One of these four finds the request that stayed.
            for end in [(other, number), (one, number)] {
                play.reply(end);
                play.cancel(end);
            }
        }
    }
}

/// Every link below 8 and every publisher, with loads that all differ.
fn one_side_and_the_other_by_turns(play: &mut Play) {
    for first_gone in Side::BOTH {
        for link in 0..8 {
            for step in 0..=link {
                play.fresh(link, (link + step * step) % 8);
            }
        }
        for number in (0..8).rev() {
            play.gone(first_gone, [number]);
            play.gone(first_gone.other(), [number]);
        }
    }
}
