//! Padded links that send and flush.

use super::padded::{padded, padded_pair};
use super::*;

const FILLING: u8 = 0xa5;

fn cancel() -> Outgoing<'static> {
    Outgoing::Message(Message::Cancel(3))
}

fn flushed(link: &mut Link) -> usize {
    let mut buffer = [FILLING; 13];
    let size = link.flush(&mut buffer).unwrap();
    assert_eq!(buffer[..size], [4, 0, 0, 0].repeat(size / 4));
    assert_eq!(buffer[size..], [FILLING; 13][size..]);
    size
}

#[test]
fn not_said_is_not_padded() {
    assert!(!Settings::new(Side::Client, true).padded);
    assert!(!Link::new(Side::Server, false).state().settings.padded);
    let settings = padded(Side::Client);
    assert_eq!(Link::set_up(settings).unwrap().state().settings, settings);
}

#[test]
fn the_size_and_16_count_the_zeros() {
    for payload in 0..=9 {
        let payload = vec![b'x'; payload];
        let length = 16 + 8 + payload.len();
        let size = length.next_multiple_of(4);
        for room in 0..size + 4 {
            let mut client = padded_pair().open().client;
            let before = client.state();
            let mut buffer = vec![FILLING; room];
            let sent = client.send(&invoke(&payload), &mut buffer);
            if room < size {
                assert_eq!(sent, Err(Refusal::BufferTooSmall));
                assert!(buffer.iter().all(|byte| *byte == FILLING));
                assert_eq!(client.state(), before);
                continue;
            }
            assert_eq!(sent, Ok(size));
            assert!(packet::checked_body(&buffer[..length], CRC32C).is_ok());
            assert!(buffer[length..size].iter().all(|byte| *byte == 0));
            assert!(buffer[size..].iter().all(|byte| *byte == FILLING));
        }
    }
}

#[test]
fn an_unpadded_link_writes_no_zeros_and_no_words() {
    let mut pair = Pair::new(true, true);
    for link in [&mut pair.client, &mut pair.server] {
        assert_eq!(link.flush(&mut []), Ok(0));
    }
    let mut pair = pair.open();
    assert_eq!(pair.client.state().since_handshake, 44);
    assert_eq!(pair.pass(Side::Client, invoke(b"x")).0.len(), 25);
    assert_eq!(pair.client.state().since_handshake, 44 + 25);
    assert_eq!(pair.server.state().since_handshake, 44);
    assert_eq!(pair.client.flush(&mut []), Ok(0));
    assert_eq!(pair.client.state().since_handshake, 44 + 25);
}

/// 0 to 4 packets of 24 bytes after the Handshake's 44.
#[test]
fn a_flush_ends_a_block() {
    for (packets, size) in [(0, 4), (1, 12), (2, 4), (3, 12), (4, 4)] {
        let mut client = padded_pair().open().client;
        for _ in 0..packets {
            sent(&mut client, cancel());
        }
        let written = client.state().since_handshake;
        assert_eq!(written, 44 + 24 * packets);
        assert_eq!(flushed(&mut client), size);
        assert_eq!(client.state().since_handshake, written + size as u64);
        assert_eq!(flushed(&mut client), 0);
        assert_eq!(client.flush(&mut []), Ok(0));
    }
}

#[test]
fn sizes_of_a_flush_from_0_to_12() {
    let mut client = padded_pair().open().client;
    flushed(&mut client);
    for (payload, size) in [(8, 0), (7, 0), (4, 4), (1, 4), (0, 8), (12, 12), (9, 12)] {
        sent(&mut client, invoke(&vec![b'x'; payload]));
        let before = client.state();
        for room in 0..size {
            let mut buffer = vec![FILLING; room];
            let refused = client.flush(&mut buffer);
            assert_eq!(refused, Err(Refusal::BufferTooSmall));
            assert!(buffer.iter().all(|byte| *byte == FILLING));
            assert_eq!(client.state(), before);
        }
        assert_eq!(flushed(&mut client), size);
        let counted = State {
            since_handshake: before.since_handshake + size as u64,
            ..before
        };
        assert_eq!(client.state(), counted);
    }
}

/// None before our own Handshake, theirs or not; a flush needs no turn.
#[test]
fn a_flush_in_the_opening() {
    let mut pair = padded_pair();
    let sizes = |pair: &mut Pair| (flushed(&mut pair.client), flushed(&mut pair.server));
    assert_eq!(sizes(&mut pair), (0, 0));
    pair.pass(Side::Client, NONCE_OUT);
    assert_eq!(sizes(&mut pair), (0, 0));
    pair.pass(Side::Server, NONCE_OUT);
    assert_eq!(sizes(&mut pair), (0, 0));
    assert_eq!(pair.client.state().since_handshake, 0);
    pair.pass(Side::Client, HANDSHAKE_OUT);
    assert_eq!(pair.client.state().since_handshake, 44);
    assert_eq!(sizes(&mut pair), (4, 0));
    pair.pass(Side::Server, HANDSHAKE_OUT);
    assert_eq!(sizes(&mut pair), (0, 4));
    assert_eq!(pair.client.state().since_handshake, 48);
    assert_eq!(pair.server.state().since_handshake, 48);
}

#[test]
fn a_closed_link_flushes_nothing() {
    let unpadded = Pair::new(true, true).open().client;
    let handshake_sent = padded_pair().open().client;
    let fresh = Link::set_up(padded(Side::Client)).unwrap();
    for mut link in [unpadded, handshake_sent, fresh] {
        link.closed = true;
        let before = link.state();
        for room in [0, 3, 4, 16] {
            let mut buffer = vec![FILLING; room];
            assert_eq!(link.flush(&mut buffer), Err(Refusal::LinkClosed));
            assert!(buffer.iter().all(|byte| *byte == FILLING));
        }
        assert_eq!(link.state(), before);
    }
}

#[test]
fn only_what_we_write_is_counted() {
    let mut pair = padded_pair().open();
    pair.pass(Side::Server, Outgoing::Ping(4));
    let refused = pair.client.send(&NONCE_OUT, &mut [0; 100]);
    assert_eq!(refused, Err(Refusal::TypeNotNow));
    assert_eq!(pair.client.state().since_handshake, 44);
    assert_eq!(flushed(&mut pair.client), 4);
}

/// Flushes of one end are words before the next packet at the other.
#[test]
fn padded_links_understand_each_other() {
    let mut pair = padded_pair().open();
    for size in 0..40 {
        let payload = vec![b'x'; size];
        let mut buffer = [0; 100];
        let words = pair.client.flush(&mut buffer).unwrap();
        let packet = pair.client.send(&invoke(&payload), &mut buffer[words..]);
        let bytes = &buffer[..words + packet.unwrap()];
        let expected = Received::Packet {
            packet_type: values::INVOKE,
            consumed: bytes.len(),
            body: Span {
                at: words + 12,
                len: 8 + size,
            },
            clock: None,
        };
        assert_eq!(pair.server.receive(bytes, TIME), Ok(expected));
    }
}

/// The longest packet's zero is not part of its length.
#[test]
fn the_longest_packet_has_a_zero_behind_it() {
    let mut client = padded_pair().open().client;
    let payload = vec![b'x'; 16_777_215 - 16 - 8];
    let mut buffer = vec![FILLING; 16_777_216];
    let cut = client.send(&invoke(&payload), &mut buffer[1..]);
    assert_eq!(cut, Err(Refusal::BufferTooSmall));
    let sent = client.send(&invoke(&payload), &mut buffer);
    assert_eq!(sent, Ok(16_777_216));
    assert_eq!(buffer.last(), Some(&0));
    assert_eq!(flushed(&mut client), 4);
}
