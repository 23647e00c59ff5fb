//! MD5 and SHA-1 of slices of all alignments, and of lengths on either side of
//! each end of a block.

use crate::compare::{same, Compared};
use crate::counts::Counts;
use crate::draw::one_in;
use reference::generator::Generator;
use reference::hash;
use relay::keys::{md5, sha1};

pub fn case(g: &mut Generator, counts: &mut Counts) -> Compared {
    let skipped = g.below(17) as usize;
    let length = length(g);
    let mut all = g.bytes(skipped + length);
    if one_in(g, 20) {
        all.fill(g.pick(&[0, 0x80, 255]));
    }
    let bytes = &all[skipped..];
    let ours = (md5(bytes), sha1(bytes));
    let second = (hash::md5(bytes), hash::sha1(bytes));
    counts.add("digest", Ok("both of a slice"));
    same("digests", || format!("{bytes:02x?}"), ours, second)
}

/// From 56 bytes of a last block on the length needs a block more.
fn length(g: &mut Generator) -> usize {
    let blocks = g.pick(&[2, 2, 2, 5, 50]);
    let beyond = g.pick(&[0, 0, 1, 54, 55, 55, 56, 56, 57, 63]);
    let around = 64 * g.below(blocks) + beyond;
    let longest = if one_in(g, 50) {
        20_000
    } else {
        g.pick(&[64, 64, 300, 3500])
    };
    let random = g.below(longest);
    g.pick(&[around, random]) as usize
}
