//! A whole conversation in any cutting of its bytes, and any grouping of its
//! packets.

use crate::pair::{answer, assert_heard, request, Pair};
use crate::{Random, CIPHERS, SIDES};
use relay::{packet_type, Cipher, Side, ToSend};

/// Of payloads: all that make a difference to blocks.
const LENGTHS: std::ops::Range<usize> = 0..36;

/// The opening, a Ping each way, and requests and answers of many lengths.
fn converse(pair: &mut Pair, next_size: &mut dyn FnMut(usize) -> usize) {
    pair.open(next_size).unwrap();
    for (one, other) in [(Side::Client, Side::Server), (Side::Server, Side::Client)] {
        let ping = pair.pass(one, &[ToSend::Ping { id: 5 }], next_size);
        assert_eq!(ping.unwrap()[0].0, packet_type::PING);
        let pong = pair.pass(other, &[ToSend::Pong], next_size);
        assert_eq!(pong.unwrap()[0].0, packet_type::PONG);
    }
    for length in LENGTHS {
        let payload = vec![b'x'; length];
        // Two in one output, so with one flush.
        let asked = [request(&payload), request(b"and more")];
        let heard = pair.pass(Side::Client, &asked.map(ToSend::Message), next_size);
        assert_heard(Side::Server, &heard.unwrap(), &asked);
        let answered = [answer(&payload)];
        let heard = pair.pass(Side::Server, &answered.map(ToSend::Message), next_size);
        assert_heard(Side::Client, &heard.unwrap(), &answered);
    }
}

/// The bytes that went over, whole, and the longest output's size.
fn whole(cipher: Cipher) -> ([Vec<u8>; 2], usize) {
    let mut pair = Pair::new(cipher, cipher);
    let mut longest = 0;
    converse(&mut pair, &mut |output| {
        longest = longest.max(output);
        output
    });
    (pair.wire, longest)
}

#[test]
fn whole_blocks_follow_each_nonce() {
    for cipher in [Cipher::CipherOnly, Cipher::Either] {
        for wire in whole(cipher).0 {
            assert_eq!((wire.len() - 76) % 16, 0);
        }
    }
}

#[test]
fn every_output_cut_at_every_byte() {
    for cipher in CIPHERS {
        let (expected, longest) = whole(cipher);
        for cut in 1..longest {
            let mut pair = Pair::new(cipher, cipher);
            let mut is_first = true;
            converse(&mut pair, &mut |rest| {
                // A shorter output goes over whole, and the next one is cut again.
                let is_cut = is_first && cut < rest;
                is_first = !is_cut;
                if is_cut {
                    cut
                } else {
                    rest
                }
            });
            assert_eq!(pair.wire, expected);
        }
    }
}

#[test]
fn parts_of_every_size() {
    for cipher in CIPHERS {
        for size in 1..50 {
            let mut pair = Pair::new(cipher, cipher);
            converse(&mut pair, &mut |_| size);
        }
    }
}

#[test]
fn parts_of_random_sizes() {
    let mut random = Random(7);
    for n in 0..300 {
        let cipher = CIPHERS[n % 3];
        let mut pair = Pair::new(cipher, cipher);
        let most = 1 + random.below(60);
        converse(&mut pair, &mut |_| 1 + random.below(most));
    }
}

/// A long payload in parts of a socket's sizes.
#[test]
fn long_messages() {
    for cipher in CIPHERS {
        let mut pair = Pair::new(cipher, cipher);
        pair.open(&mut |rest| rest).unwrap();
        for length in [65_535, 65_536, 300_001] {
            let payload: Vec<u8> = (0..length).map(|n| n as u8).collect();
            let what = [ToSend::Message(request(&payload))];
            let heard = pair.pass(Side::Client, &what, &mut |_| 4097).unwrap();
            assert_heard(Side::Server, &heard, &[request(&payload)]);
        }
    }
}

/// A padded link that goes clear is one path with the others too.
#[test]
fn padded_and_unpadded_clear_links() {
    use relay::{Session, Settings};
    for padded in [false, true] {
        let session = |side| Session::new(Settings::new(side, true).with_padded(padded)).unwrap();
        for size in [1, 5, 16, 1000] {
            let [client, server] = SIDES.map(session);
            converse(&mut Pair::of(client, server), &mut |_| size);
        }
    }
}
