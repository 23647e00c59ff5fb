//! What a padded link refuses, and a padded end against an unpadded one.

use crate::ends::*;
use relay::{Arrival, Link, Refusal, Side, ToSend};

const PING: ToSend = ToSend::Ping { id: 1 };

/// The link refuses these bytes so, and is closed then.
fn closes(link: &Link, bytes: &[u8], refusal: Refusal) {
    let mut link = link.clone();
    assert_eq!(link.receive(bytes, NOW), Arrival::Refused(refusal));
    assert!(link.is_closed());
    let closed = Err(Refusal::LINK_CLOSED);
    assert_eq!(link.flush(&mut []), closed);
    assert_eq!(link.send(&mut [0; 100], PING, NOW), closed);
    let after = link.receive(&[], NOW);
    assert_eq!(after, Arrival::Refused(Refusal::LINK_CLOSED));
}

#[test]
fn a_fourth_word() {
    let (client, mut server) = opened(true, true);
    let packet = sent(&mut server, result(b"page"));
    for behind in [&[], &WORD[..2], &WORD, &packet] {
        let bytes = [&WORD.repeat(4), behind].concat();
        closes(&client, &bytes, Refusal::FOURTH_WORD);
    }
    for length in [0, 3, 5, 15] {
        let bytes = [WORD.repeat(3), vec![length, 0, 0, 0]].concat();
        closes(&client, &bytes, Refusal::LENGTH_UNDER_16);
    }
}

#[test]
fn padding_other_than_zeros() {
    let (client, server) = opened(true, true);
    for n in 1..4 {
        let packet = sent(&mut server.clone(), result(&[9; 3][..n]));
        for at in 24 + n..packet.len() {
            let mut changed = packet.clone();
            changed[at] = 4;
            closes(&client, &changed, Refusal::PADDING_NOT_ZERO);
            changed[20] ^= 1;
            closes(&client, &changed, Refusal::CHECKSUM);
        }
    }
}

#[test]
fn padding_other_than_zeros_behind_a_handshake() {
    let mut client = fresh(Side::Client, true);
    let mut server = fresh(Side::Server, true);
    server.receive(&sent(&mut client, NONCE), NOW);
    client.receive(&sent(&mut server, NONCE), NOW);
    let mut handshake = longer(&sent(&mut client, HANDSHAKE));
    assert_eq!(handshake.len(), 45);
    handshake.extend([0, 0, 1]);
    closes(&server, &handshake, Refusal::PADDING_NOT_ZERO);
}

#[test]
fn words_in_the_opening() {
    let mut client = fresh(Side::Client, true);
    let mut server = fresh(Side::Server, true);
    for (sender, what) in OPENING {
        let (from, to) = match sender {
            Side::Client => (&mut client, &mut server),
            Side::Server => (&mut server, &mut client),
        };
        closes(to, &WORD, Refusal::LENGTH_UNDER_16);
        to.receive(&sent(from, what), NOW);
    }
    assert!(client.is_open() && server.is_open());
}

#[test]
fn words_on_an_unpadded_link() {
    let (client, server) = opened(false, false);
    closes(&client, &WORD, Refusal::LENGTH_UNDER_16);
    closes(&server, &WORD, Refusal::LENGTH_UNDER_16);
}

#[test]
fn packets_of_whole_words_do_not_tell_a_padded_end_from_an_unpadded_one() {
    for (client, server) in [(true, false), (false, true)] {
        let (mut client, mut server) = opened(client, server);
        let packet = sent(&mut server, PING);
        let arrival = client.receive(&packet, NOW);
        assert!(matches!(arrival, Arrival::Packet { consumed: 24, .. }));
    }
}

#[test]
fn an_unpadded_end_closes_at_what_a_padded_one_sends() {
    let (mut client, mut server) = opened(false, true);
    let words = written(&mut server.clone(), Link::flush);
    closes(&client, &words, Refusal::LENGTH_UNDER_16);
    // The zeros become the low bytes of the next length.
    let packets = [sent(&mut server, result(b"x")), sent(&mut server, PING)].concat();
    let arrival = client.receive(&packets, NOW);
    assert!(matches!(arrival, Arrival::Packet { consumed: 25, .. }));
    closes(&client, &packets[25..], Refusal::LENGTH_OVER_LIMIT);
}

#[test]
fn a_padded_end_closes_at_what_an_unpadded_one_sends() {
    let (mut client, mut server) = opened(true, false);
    let packets = [sent(&mut server, result(b"x")), sent(&mut server, PING)].concat();
    let incomplete = client.receive(&packets[..25], NOW);
    assert_eq!(incomplete, Arrival::Incomplete(3));
    closes(&client, &packets, Refusal::PADDING_NOT_ZERO);
}
