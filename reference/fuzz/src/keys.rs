//! Derivations of keys: all versions, both directions, and keys and buffers of
//! lengths on either side of each line. The whole answer and the whole buffer
//! are compared, refused or not.

use crate::compare::{same, Compared, Difference};
use crate::counts::Counts;
use crate::draw;
use reference::generator::Generator;
use reference::keys::{derive, Keys, Peer, Request};
use reference::message::Side;
use reference::refusal::Refusal;
use relay::keys::{clear, Ends};
use relay::raw;

/// A derivation's answer as it crosses the C interface: refusal, size, key and
/// vector.
type Answer = (u8, usize, [u8; 32], [u8; 16]);

/// In the init message of version 2.
const LONGEST_AROUND_KEY: usize = 118;

pub fn case(g: &mut Generator, counts: &mut Counts) -> Compared {
    let any = g.byte();
    let length = key_length(g);
    let key = g.bytes(length);
    let request = Request {
        version: g.pick(&[0, 0, 0, 1, 1, 1, 2, 2, 2, 2, 3, any]),
        sender: draw::side(g),
        client: peer(g),
        server: peer(g),
        key: &key,
        shared: draw::array(g),
    };
    let around = if request.version == 2 {
        LONGEST_AROUND_KEY
    } else {
        86
    };
    let needed = length + around;
    let below = draw::up_to(g, needed);
    let beyond = needed + g.below(200) as usize;
    for room in [0, below, needed - 1, g.pick(&[needed, needed + 1, beyond])] {
        compare(&request, room, g.byte(), counts)?;
    }
    cleared(g, counts)
}

/// Long ones are rare: the second program takes its time.
fn key_length(g: &mut Generator) -> usize {
    let short = g.pick(&[0, 1, 2, 3, 4, 5, 31, 32, 33]);
    let longest = g.pick(&[64, 300]);
    let random = draw::up_to(g, longest);
    let line = g.pick(&[4095, 4096, 4096, 4097, 4098, 5000]);
    g.pick(&[short, short, random, random, random, line])
}

fn peer(g: &mut Generator) -> Peer {
    Peer {
        random: draw::array(g),
        time: g.draw() as u32,
        ip: g.draw() as u32,
        port: g.draw() as u16,
    }
}

/// Both derive into a buffer of `room` bytes that are `filler`.
fn compare(request: &Request, room: usize, filler: u8, counts: &mut Counts) -> Compared {
    let mut our_buffer = vec![filler; room];
    let mut buffer = our_buffer.clone();
    let ours = raw_derive(request, &mut our_buffer);
    let second = derive(request, &mut buffer);
    let word = |_| match request.version {
        0 => "version 0",
        1 => "version 1",
        _ => "version 2",
    };
    counts.add("derive", second.map(word).map_err(|r| r.number()));
    let call = || format!("derive, room {room}: {request:02x?}");
    same("a derivation", call, ours, of_second(second))?;
    same("its buffer", call, our_buffer, buffer)
}

/// Into a buffer that is large enough, for a request that is not refused.
pub fn derived(request: &Request, counts: &mut Counts) -> Result<Keys, Difference> {
    let room = request.key.len() + LONGEST_AROUND_KEY;
    compare(request, room, 0, counts)?;
    Ok(derive(request, &mut vec![0; room]).expect("keys"))
}

fn raw_derive(request: &Request, buffer: &mut [u8]) -> Answer {
    let end = |peer: Peer| relay::keys::End {
        random: peer.random,
        time: peer.time,
        ip: peer.ip,
        port: peer.port,
    };
    let what = raw::Derivation {
        version: request.version,
        from_server: request.sender == Side::Server,
        ends: Ends {
            client: end(request.client),
            server: end(request.server),
        },
        shared: request.shared,
    };
    let (start, room) = (buffer.as_mut_ptr(), buffer.len());
    let (key, n) = (request.key.as_ptr(), request.key.len());
    // SAFETY: each pointer and length are a slice's.
    let answer = unsafe { raw::relay_derive(start, room, what, key, n) };
    (answer.refusal, answer.size, answer.key, answer.vector)
}

/// After a refusal all else is 0.
fn of_second(answer: Result<Keys, Refusal>) -> Answer {
    match answer {
        Ok(keys) => (0, keys.size, keys.key, keys.vector),
        Err(refusal) => (refusal.number(), 0, [0; 32], [0; 16]),
    }
}

/// A part of a buffer; the second program has no such call.
fn cleared(g: &mut Generator, counts: &mut Counts) -> Compared {
    let length = g.below(300) as usize;
    let mut ours = g.bytes(length);
    let start = draw::up_to(g, length);
    let end = start + draw::up_to(g, length - start);
    let mut expected = ours.clone();
    expected[start..end].fill(0);
    clear(&mut ours[start..end]);
    counts.add("clear", Ok("part of a buffer"));
    let call = || format!("clear {start}..{end} of {length}");
    same("a cleared buffer", call, ours, expected)
}
