//! Enciphering and deciphering through the C interface, of buffers of whole
//! blocks and of others: in one call, cut in two, and there and back.

use crate::compare::{same, Compared};
use crate::counts::Counts;
use crate::draw::{self, array, coin, one_in};
use reference::cipher::{decipher, encipher, BLOCK, KEY};
use reference::generator::Generator;
use relay::raw;

#[derive(Clone, Copy, Debug)]
pub enum Way {
    There,
    Back,
}

/// One direction at one end, in both programs.
#[derive(Clone)]
pub struct Chain {
    way: Way,
    key: [u8; KEY],
    vector: [u8; BLOCK],
    round_keys: raw::RoundKeys,
}

impl Chain {
    pub fn new(way: Way, key: [u8; KEY], vector: [u8; BLOCK]) -> Chain {
        let bytes = raw::CipherKey { bytes: key };
        // SAFETY: all is passed by value.
        let round_keys = unsafe {
            match way {
                Way::There => raw::relay_encipher_keys(bytes),
                Way::Back => raw::relay_decipher_keys(bytes),
            }
        };
        Chain {
            way,
            key,
            vector,
            round_keys,
        }
    }

    /// Both work on the bytes; refusals, vectors and bytes are compared, and a
    /// refusal leaves the chain.
    pub fn go_on(&mut self, bytes: &mut [u8], counts: &mut Counts) -> Compared {
        let (way, key, before) = (self.way, self.key, self.vector);
        let given = bytes.to_vec();
        let ours = self.ours(bytes);
        let (mut vector, mut second) = (before, given.clone());
        let answer = match way {
            Way::There => encipher(&key, &mut vector, &mut second),
            Way::Back => decipher(&key, &mut vector, &mut second),
        };
        let answer = answer.map_err(|refusal| refusal.number());
        let name = match way {
            Way::There => "encipher",
            Way::Back => "decipher",
        };
        counts.add(name, answer.map(|()| word(given.len())));
        let call = || format!("{name}, key {key:02x?}, vector {before:02x?}: {given:02x?}");
        let refusal = answer.err().unwrap_or(0);
        same("a chained call", call, ours, (refusal, vector))?;
        same("its buffer", call, &bytes[..], &second)?;
        self.vector = vector;
        Ok(())
    }

    /// Refusal and vector.
    fn ours(&self, bytes: &mut [u8]) -> (u8, [u8; BLOCK]) {
        let (start, n) = (bytes.as_mut_ptr(), bytes.len());
        let vector = raw::Vector { bytes: self.vector };
        // SAFETY: the pointer and length are a slice's.
        let chained = unsafe {
            match self.way {
                Way::There => raw::relay_encipher(start, n, self.round_keys, vector),
                Way::Back => raw::relay_decipher(start, n, self.round_keys, vector),
            }
        };
        (chained.refusal, chained.vector.bytes)
    }
}

fn word(length: usize) -> &'static str {
    match length / BLOCK {
        0 => "no block",
        1 => "a block",
        2..=16 => "2 to 16 blocks",
        _ => "more blocks",
    }
}

pub fn case(g: &mut Generator, counts: &mut Counts) -> Compared {
    let (key, vector) = (even(g), even(g));
    let (way, back) = if coin(g) {
        (Way::There, Way::Back)
    } else {
        (Way::Back, Way::There)
    };
    // At any place in a buffer, whose other bytes stay.
    let (at, length) = (draw::up_to(g, BLOCK), length(g));
    let behind = draw::up_to(g, BLOCK);
    let before = g.bytes(at + length + behind);
    let mut after = before.clone();
    Chain::new(way, key, vector).go_on(&mut after[at..at + length], counts)?;
    let around = |all: &[u8]| [&all[..at], &all[at + length..]].concat();
    let call = || format!("{way:?}, {length} bytes");
    same("around a buffer", call, around(&after), around(&before))?;
    if coin(g) {
        let mut again = after[at..at + length].to_vec();
        Chain::new(back, key, vector).go_on(&mut again, counts)?;
        return same("there and back", call, &again[..], &before[at..at + length]);
    }
    let mut pieces = before[at..at + length].to_vec();
    let cut = cut(g, length);
    let (front, end) = pieces.split_at_mut(cut);
    let mut chain = Chain::new(way, key, vector);
    chain.go_on(front, counts)?;
    chain.go_on(end, counts)?;
    if cut % BLOCK == 0 && length % BLOCK == 0 {
        same("two pieces", call, &pieces[..], &after[at..at + length])?;
    }
    Ok(())
}

/// Random bytes, and now and then only one value, or but one bit set.
fn even<const N: usize>(g: &mut Generator) -> [u8; N] {
    if !one_in(g, 8) {
        return array(g);
    }
    let mut bytes = [g.pick(&[0, 0, 255]); N];
    if coin(g) {
        bytes[g.below(N as u64) as usize] ^= 1 << g.below(8);
    }
    bytes
}

/// Mostly of whole blocks, mostly few: the second program takes its time.
fn length(g: &mut Generator) -> usize {
    let longest = if one_in(g, 200) {
        300
    } else {
        g.pick(&[2, 4, 9, 20])
    };
    let blocks = draw::up_to(g, longest);
    let over = if one_in(g, 8) { g.below(16) } else { 0 };
    BLOCK * blocks + over as usize
}

/// Mostly between two blocks.
fn cut(g: &mut Generator, length: usize) -> usize {
    if one_in(g, 6) {
        return draw::up_to(g, length);
    }
    BLOCK * draw::up_to(g, length / BLOCK)
}
