//! Padded links: zeros behind packets, words between them, and whole blocks of
//! 16 bytes after a flush, in lumps of all sizes.

mod ends;
mod refusals;

use ends::*;
use relay::{packet_type, Answer, Arrival, Invoke, Link, Message, Refusal, Side, ToSend};

/// Invokes with the first bytes of a payload, as many as it has and fewer, and
/// the other messages.
fn from_client(payload: &[u8]) -> Vec<Message<'_>> {
    let invokes = (0..=payload.len()).map(|n| {
        Message::Invoke(Invoke {
            number: 5,
            actor: (n % 3 == 0).then_some(4),
            timeout: (n % 5 == 0).then_some(4),
            tl2: false,
            payload: &payload[..n],
        })
    });
    let short = [Message::Cancel { number: 5 }, Message::ClientFin];
    invokes.chain(short).collect()
}

/// The same with results, and with errors whose texts are those bytes.
fn from_server(payload: &[u8]) -> Vec<Message<'_>> {
    let answers = (0..=payload.len()).flat_map(|n| {
        let text = &payload[..n];
        [Answer::Payload(text), Answer::Error { code: 4, text }]
    });
    let results = answers.map(|answer| Message::Result { number: 5, answer });
    results.chain([Message::ServerFin]).collect()
}

/// A Ping, whose ID looks like two words, and its Pong.
fn keep_alive(pair: &mut Pair, one: Side, other: Side) {
    let id = WORD.repeat(2);
    let ping = ToSend::Ping {
        id: 0x0000_0004_0000_0004,
    };
    let packets = pair.pass(one, &[ping]);
    assert_eq!(packets, [(packet_type::PING, id.clone())]);
    let packets = pair.pass(other, &[ToSend::Pong]);
    assert_eq!(packets, [(packet_type::PONG, id)]);
}

#[test]
fn a_conversation_in_lumps_of_all_sizes() {
    // It looks like words, which nothing within a packet is.
    let payload = WORD.repeat(9);
    for lump in 1..=100 {
        for every in [None, Some(1), Some(2), Some(3)] {
            let mut pair = Pair::new(true, true, lump, every);
            pair.talk(Side::Client, Side::Server, &from_client(&payload));
            keep_alive(&mut pair, Side::Client, Side::Server);
            pair.talk(Side::Server, Side::Client, &from_server(&payload));
            keep_alive(&mut pair, Side::Server, Side::Client);
            // What is left are the words of the last flush.
            for input in [&pair.client.input, &pair.server.input] {
                assert!(input.len() <= if every.is_some() { 12 } else { 0 });
                assert_eq!(*input, WORD.repeat(input.len() / 4));
            }
        }
    }
}

/// Both links send the same; the padded one adds zeros.
fn compare(padded: &mut Link, unpadded: &mut Link, messages: Vec<Message>) {
    for message in messages.into_iter().map(ToSend::Message) {
        let mut expected = sent(unpadded, message);
        expected.resize(expected.len().next_multiple_of(4), 0);
        assert_eq!(sent(padded, message), expected);
    }
}

#[test]
fn zeros_follow_what_an_unpadded_link_writes() {
    let payload = [0xff; 9];
    let (mut client, mut server) = opened(true, true);
    let (mut unpadded_client, mut unpadded_server) = opened(false, false);
    compare(&mut client, &mut unpadded_client, from_client(&payload));
    compare(&mut server, &mut unpadded_server, from_server(&payload));
}

#[test]
fn waits_count_words_and_zeros() {
    let (client, server) = opened(true, true);
    for n in 0..8 {
        let packet = sent(&mut server.clone(), result(&[9; 8][..n]));
        for words in 0..=3 {
            let bytes = [WORD.repeat(words), packet.clone()].concat();
            for cut in 0..bytes.len() {
                let rest = cut - 4 * words.min(cut / 4);
                let more = match rest {
                    0..4 => 4 - rest,
                    4..12 => 12 - rest,
                    _ => packet.len() - rest,
                };
                let arrival = client.clone().receive(&bytes[..cut], NOW);
                assert_eq!(arrival, Arrival::Incomplete(more), "{cut} bytes");
            }
            let whole = Arrival::Packet {
                kind: packet_type::RESULT,
                consumed: bytes.len(),
                body: &[&5_i64.to_le_bytes(), &[9; 8][..n]].concat(),
            };
            let more = [&bytes[..], b"more"].concat();
            assert_eq!(client.clone().receive(&more, NOW), whole);
        }
    }
}

/// Receives a packet and the zeros that follow it, which all are needed.
fn takes(link: &mut Link, packet: &[u8], zeros: usize) {
    let mut bytes = packet.to_vec();
    for more in (1..=zeros).rev() {
        assert_eq!(link.receive(&bytes, NOW), Arrival::Incomplete(more));
        bytes.push(0);
    }
    let size = bytes.len();
    let arrival = link.receive(&bytes, NOW);
    assert!(matches!(arrival, Arrival::Packet { consumed, .. } if consumed == size));
}

#[test]
fn zeros_follow_a_handshake_and_no_nonce() {
    let mut client = fresh(Side::Client, true);
    let mut server = fresh(Side::Server, true);
    takes(&mut server, &longer(&sent(&mut client, NONCE)), 0);
    takes(&mut client, &longer(&sent(&mut server, NONCE)), 0);
    takes(&mut server, &longer(&sent(&mut client, HANDSHAKE)), 3);
    takes(&mut client, &longer(&sent(&mut server, HANDSHAKE)), 3);
    assert!(client.is_open() && server.is_open());
}

#[test]
fn nothing_is_flushed_before_our_handshake_or_on_an_unpadded_link() {
    for padded in [false, true] {
        let mut links = [Side::Client, Side::Server].map(|side| fresh(side, padded));
        for (sender, what) in OPENING {
            let [from, to] = match sender {
                Side::Client => [0, 1],
                Side::Server => [1, 0],
            };
            let before = links[from].clone();
            assert_eq!(links[from].flush(&mut [0; 16]), Ok(0));
            assert_eq!(links[from], before);
            let packet = sent(&mut links[from], what);
            links[to].receive(&packet, NOW);
        }
        let size = if padded { 4 } else { 0 };
        assert_eq!(
            links.map(|mut link| link.flush(&mut [0; 16])),
            [Ok(size); 2]
        );
    }
}

#[test]
fn the_longest_packet_and_its_zero() {
    let (mut client, mut server) = opened(true, true);
    let payload = vec![1; 16_777_215 - 16 - 8 + 1];
    let mut buf = vec![0xee; 16_777_216];
    let over = server.send(&mut buf, result(&payload), NOW);
    assert_eq!(over, Err(Refusal::LENGTH_OVER_LIMIT));
    let longest = result(&payload[1..]);
    let short = server.send(&mut buf[1..], longest, NOW);
    assert_eq!(short, Err(Refusal::BUFFER_TOO_SMALL));
    assert_eq!(server.send(&mut buf, longest, NOW), Ok(16_777_216));
    let incomplete = client.receive(&buf[..16_777_215], NOW);
    assert_eq!(incomplete, Arrival::Incomplete(1));
    let arrival = client.receive(&buf, NOW);
    assert!(matches!(arrival, Arrival::Packet { body, .. } if body[8..] == payload[1..]));
}
