//! What a peer puts around its packets on a padded or ciphered link (document
//! 02, A7 and A9): words before them and zeros behind them, mostly as they
//! should be.

use crate::both::End;
use crate::draw::{self, one_in};
use reference::generator::Generator;
use reference::link::packet;

const WORD: [u8; 4] = [4, 0, 0, 0];

/// Mostly what `to` expects; on unpadded links and in the opening words and
/// zeros too, now and then.
pub fn around(g: &mut Generator, to: &End, packet: Vec<u8>) -> Vec<u8> {
    let words = words(g, to);
    let mut zeros = Vec::new();
    if (to.is_padded() && to.second.state().stage >= 2) != one_in(g, 20) {
        zeros.resize(packet::zeros(packet.len()), 0);
    }
    if one_in(g, 12) {
        damage(g, &mut zeros);
    }
    [words, packet, zeros].concat()
}

/// None to five, mostly no more than the three that are allowed.
pub fn words(g: &mut Generator, to: &End) -> Vec<u8> {
    let may_stand = to.is_padded() && to.second.state().stage == 4;
    if !may_stand && !one_in(g, 20) {
        return Vec::new();
    }
    let allowed = g.below(4) as usize;
    let beyond = g.pick(&[4, 4, 5]);
    let count = if one_in(g, 16) { beyond } else { allowed };
    let mut words = WORD.repeat(count);
    if one_in(g, 16) {
        damage(g, &mut words);
    }
    words
}

/// A bit of a byte changed, or a byte too few or too many.
fn damage(g: &mut Generator, bytes: &mut Vec<u8>) {
    let at = draw::up_to(g, bytes.len());
    if at == bytes.len() {
        let any = g.byte();
        bytes.push(g.pick(&[0, 4, any]));
    } else if one_in(g, 5) {
        bytes.remove(at);
    } else {
        bytes[at] ^= 1 << g.below(8);
    }
}

/// A place to cut bytes at: any, or one near the front, where words may stand,
/// or near the end, where zeros may.
pub fn cut(g: &mut Generator, length: usize) -> usize {
    let any = draw::up_to(g, length);
    let front = draw::up_to(g, length.min(20));
    let end = length - draw::up_to(g, length.min(8));
    g.pick(&[any, front, end])
}
