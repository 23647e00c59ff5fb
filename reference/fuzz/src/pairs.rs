//! The two ends of a connection: what they are set up with, and as far opened
//! as is wanted.

use crate::both::End;
use crate::compare::Difference;
use crate::counts::Counts;
use crate::draw::{self, array, coin, one_in};
use reference::generator::Generator;
use reference::link::Cipher::{self, CipherOnly, ClearOnly, Either};
use reference::link::{Outgoing, Settings};
use reference::message::Side;

/// What an end is set up with.
#[derive(Clone, Copy)]
pub struct SetUp {
    pub settings: Settings,
    /// Said of a link that goes clear only, where it is not heeded.
    pub only: bool,
    pub key: Option<[u8; 32]>,
}

/// A client's and a server's setting that meet in a clear link.
const CLEAR: [[Cipher; 2]; 3] = [
    [ClearOnly, ClearOnly],
    [ClearOnly, Either],
    [Either, ClearOnly],
];
/// Those that meet in a ciphered one, if the KeyIDs are the same.
const CIPHERED: [[Cipher; 2]; 4] = [
    [CipherOnly, CipherOnly],
    [CipherOnly, Either],
    [Either, CipherOnly],
    [Either, Either],
];

/// Of a client and a server that open against each other.
pub fn meeting(g: &mut Generator) -> [SetUp; 2] {
    match g.below(5) {
        0..2 => set_ups(g, [ClearOnly; 2]),
        2 => {
            let ciphers = g.pick(&CLEAR);
            let [client, mut server] = set_ups(g, ciphers);
            server.key = server.key.map(|key| other_key(g, key));
            [client, server]
        }
        _ => ciphered(g),
    }
}

/// Of a client and a server that meet in a ciphered link.
pub fn ciphered(g: &mut Generator) -> [SetUp; 2] {
    let ciphers = g.pick(&CIPHERED);
    set_ups(g, ciphers)
}

/// Of a client and a server that mostly meet.
pub fn any(g: &mut Generator) -> [SetUp; 2] {
    if !one_in(g, 5) {
        return meeting(g);
    }
    let ciphers = [draw::cipher(g), draw::cipher(g)];
    let [client, mut server] = set_ups(g, ciphers);
    server.key = server.key.map(|key| other_key(g, key));
    [client, server]
}

/// Refused by none; both are mostly padded, or both not. Keys are the same at
/// both ends; some have one that do not need it.
fn set_ups(g: &mut Generator, ciphers: [Cipher; 2]) -> [SetUp; 2] {
    let padded = coin(g);
    let key = key(g);
    let [client, server] = ciphers;
    [(Side::Client, client), (Side::Server, server)].map(|(side, cipher)| SetUp {
        settings: Settings {
            lowest_version: g.pick(&[0, 1, 2]),
            padded: padded != one_in(g, 20),
            cipher,
            ..Settings::new(side, coin(g))
        },
        only: coin(g),
        key: (cipher != ClearOnly || one_in(g, 3)).then_some(key),
    })
}

/// Not with four zeros in front.
fn key(g: &mut Generator) -> [u8; 32] {
    let mut key = array(g);
    key[g.below(4) as usize] |= 1;
    key
}

/// The same, one of another KeyID, or any.
fn other_key(g: &mut Generator, same: [u8; 32]) -> [u8; 32] {
    let mut near = same;
    // Not the bit that keeps the four from being zeros.
    near[g.below(4) as usize] ^= 2 << g.below(7);
    let any = key(g);
    g.pick(&[same, near, any])
}

/// Two ends of one connection before its opening.
pub fn pair(set_ups: [SetUp; 2], counts: &mut Counts) -> [End; 2] {
    let word = match set_ups.map(|of_end| of_end.settings.padded) {
        [true, true] => "padded",
        [false, false] => "unpadded",
        _ => "one end padded",
    };
    counts.add("pair", Ok(word));
    let word = match set_ups.map(|of_end| of_end.key.is_some()) {
        [true, true] => "both ends",
        [false, false] => "none",
        _ => "one end",
    };
    counts.add("pair's keys", Ok(word));
    let [client, server] = set_ups.map(|of_end| of_end.settings.cipher);
    counts.add(setting(client), Ok(word_of(server)));
    set_ups.map(End::new)
}

fn setting(client: Cipher) -> &'static str {
    match client {
        ClearOnly => "client clear only",
        CipherOnly => "client cipher only",
        Either => "client either",
    }
}

fn word_of(server: Cipher) -> &'static str {
    match server {
        ClearOnly => "server clear only",
        CipherOnly => "server cipher only",
        Either => "server either",
    }
}

/// Two ends of one connection that have opened as far as `stage`.
pub fn opened(
    set_ups: [SetUp; 2],
    stage: usize,
    counts: &mut Counts,
) -> Result<[End; 2], Difference> {
    let mut ends = pair(set_ups, counts);
    let time = 1_700_000_000;
    let nonce = Outgoing::Nonce(time, [7; 16], [8; 32]);
    let handshake = Outgoing::Handshake([1; 12], [2; 12]);
    for (i, what) in [nonce, nonce, handshake, handshake]
        .iter()
        .enumerate()
        .take(stage)
    {
        let sent = ends[i % 2].send(what, time, 100, 0, counts)?;
        let packet = sent.expect("the opening goes through");
        ends[1 - i % 2].receive(&packet, time, counts)?;
    }
    Ok(ends)
}
