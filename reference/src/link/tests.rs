mod ciphered;
mod ciphered_after;
mod key;
mod nonce_fields;
mod padded;
mod padded_sending;
mod versions;

use super::*;
use crate::message::values;
use crate::message::{Invoke, Outcome};

const TIME: u32 = 1_700_000_000;

/// Both ends of one connection.
struct Pair {
    client: Link,
    server: Link,
}

impl Pair {
    fn new(client_crc32c: bool, server_crc32c: bool) -> Pair {
        Pair {
            client: Link::new(Side::Client, client_crc32c),
            server: Link::new(Side::Server, server_crc32c),
        }
    }

    /// Sends from `sender`, hands it to the other end, and gives the packet.
    fn pass(&mut self, sender: Side, outgoing: Outgoing) -> (Vec<u8>, Received) {
        let (from, to) = match sender {
            Side::Client => (&mut self.client, &mut self.server),
            Side::Server => (&mut self.server, &mut self.client),
        };
        let packet = sent(from, outgoing);
        let received = to.receive(&packet, TIME).unwrap();
        (packet, received)
    }

    fn open(mut self) -> Pair {
        self.pass(Side::Client, NONCE_OUT);
        self.pass(Side::Server, NONCE_OUT);
        self.pass(Side::Client, HANDSHAKE_OUT);
        self.pass(Side::Server, HANDSHAKE_OUT);
        self
    }
}

const NONCE_OUT: Outgoing = Outgoing::Nonce(TIME, [7; 16], [8; 32]);
const HANDSHAKE_OUT: Outgoing = Outgoing::Handshake([1; 12], [2; 12]);

fn sent(link: &mut Link, outgoing: Outgoing) -> Vec<u8> {
    let mut buffer = [0; 200];
    let size = link.send(&outgoing, &mut buffer).unwrap();
    buffer[..size].to_vec()
}

fn invoke(payload: &[u8]) -> Outgoing<'_> {
    Outgoing::Message(Message::Invoke(Invoke {
        number: 1,
        actor: None,
        timeout: None,
        tl2: false,
        payload,
    }))
}

fn packet_number(packet: &[u8]) -> u32 {
    crate::numbers::read_u32(packet, 4)
}

#[test]
fn the_checksum_follows_both_settings() {
    for (client, server) in [(false, false), (false, true), (true, false), (true, true)] {
        let mut pair = Pair::new(client, server).open();
        let polynomial = if client && server { CRC32C } else { CRC32 };
        for sender in [Side::Client, Side::Server] {
            let (packet, _) = pair.pass(sender, Outgoing::Ping(5));
            assert!(packet::checked_body(&packet, polynomial).is_ok());
        }
    }
}

#[test]
fn handshakes_have_crc32() {
    let mut pair = Pair::new(true, true);
    for sender in [Side::Client, Side::Server] {
        pair.pass(sender, NONCE_OUT);
    }
    for sender in [Side::Client, Side::Server] {
        let (packet, _) = pair.pass(sender, HANDSHAKE_OUT);
        assert!(packet::checked_body(&packet, CRC32).is_ok());
        assert_eq!(crate::numbers::read_u32(&packet, 12), FLAG_CRC32C);
    }
}

#[test]
fn numbers_start_at_minus_2_and_wrap() {
    let mut pair = Pair::new(true, true);
    let mut numbers = Vec::new();
    for outgoing in [NONCE_OUT, HANDSHAKE_OUT] {
        for sender in [Side::Client, Side::Server] {
            numbers.push(packet_number(&pair.pass(sender, outgoing).0));
        }
    }
    for _ in 0..2 {
        numbers.push(packet_number(&pair.pass(Side::Client, invoke(b"x")).0));
    }
    let top = u32::MAX;
    assert_eq!(numbers, [top - 1, top - 1, top, top, 0, 1]);
}

#[test]
fn waits_at_every_cut_and_changes_nothing() {
    let mut client = Link::new(Side::Client, true);
    let packet = sent(&mut client, NONCE_OUT);
    let mut server = Link::new(Side::Server, true);
    for n in 0..packet.len() {
        let whole = match n {
            0..4 => 4,
            4..12 => 12,
            _ => packet.len(),
        };
        let received = server.receive(&packet[..n], TIME);
        assert_eq!(received, Ok(Received::Wait(whole - n)));
    }
    let behind = [&packet[..], b"more"].concat();
    let expected = Received::Packet {
        packet_type: NONCE,
        consumed: 76,
        body: Span { at: 12, len: 60 },
        clock: Some(-5),
    };
    assert_eq!(server.receive(&behind, TIME + 5), Ok(expected));
}

#[test]
fn clocks_on_either_side_of_the_line() {
    let clock = |theirs: u32, ours: u32| {
        let mut server = Link::new(Side::Server, false);
        let body = nonce_body(2, theirs, [0; 16]);
        let packet = packet::whole(packet::FIRST_NUMBER, NONCE, &body, CRC32);
        match server.receive(&packet, ours) {
            Ok(Received::Packet { clock, .. }) => clock,
            _ => None,
        }
    };
    for far in [30, -30, 0, 29] {
        assert_eq!(clock(TIME.wrapping_add_signed(far), TIME), Some(far.into()));
    }
    for far in [31, -31] {
        assert_eq!(clock(TIME.wrapping_add_signed(far), TIME), None);
    }
    assert_eq!(clock(u32::MAX, 0), None);
    assert_eq!(clock(0, u32::MAX), None);
}

#[test]
fn the_two_sides_judge_a_nonce_differently() {
    let judged = |side, encryption, version| {
        let mut link = Link::new(side, false);
        if side == Side::Client {
            sent(&mut link, NONCE_OUT);
        }
        let mut body = nonce_body(version, TIME, [0; 16]);
        body[4] = encryption;
        let packet = packet::whole(packet::FIRST_NUMBER, NONCE, &body, CRC32);
        link.receive(&packet, TIME).err().map_or(0, Refusal::number)
    };
    assert_eq!(judged(Side::Server, 1, 2), 9);
    assert_eq!(judged(Side::Server, 2, 255), 0);
    assert_eq!(judged(Side::Client, 0, 2), 0);
    assert_eq!(judged(Side::Client, 2, 2), 9);
    assert_eq!(judged(Side::Client, 0, 3), 10);
    assert_eq!(judged(Side::Client, 1, 3), 9);
}

#[test]
fn the_bytes_of_the_opening() {
    let mut pair = Pair::new(true, true);
    let nonce = Outgoing::Nonce(0x0403_0201, *b"ABCDEFGHIJKLMNOP", [9; 32]);
    let packet = sent(&mut pair.client, nonce);
    assert_eq!(packet[..12], *b"\x4c\0\0\0\xfe\xff\xff\xff\xaa\x87\xcb\x7a");
    assert_eq!(packet[12..24], [0, 0, 0, 0, 0, 2, 0, 0, 1, 2, 3, 4]);
    assert_eq!(packet[24..40], *b"ABCDEFGHIJKLMNOP");
    assert_eq!(packet[40..72], [0; 32]);

    let mut pair = Pair::new(true, true);
    pair.pass(Side::Client, NONCE_OUT);
    pair.pass(Side::Server, NONCE_OUT);
    let packet = sent(&mut pair.client, HANDSHAKE_OUT);
    assert_eq!(packet[..12], *b"\x2c\0\0\0\xff\xff\xff\xff\xf5\xee\x82\x76");
    assert_eq!(packet[12..16], [0, 8, 0, 0]);
    assert_eq!(
        (&packet[16..28], &packet[28..40]),
        (&[1; 12][..], &[2; 12][..])
    );
}

#[test]
fn a_server_answers_with_the_smaller_version() {
    for (theirs, answered) in [(0, 0), (1, 1), (2, 2), (3, 2), (255, 2)] {
        let mut server = Link::new(Side::Server, true);
        let body = nonce_body(theirs, TIME, [0; 16]);
        let packet = packet::whole(packet::FIRST_NUMBER, NONCE, &body, CRC32);
        server.receive(&packet, TIME).unwrap();
        assert_eq!(sent(&mut server, NONCE_OUT)[12 + 5], answered);
    }
}

#[test]
fn turns_types_and_ways() {
    let mut buffer = [0; 100];
    let mut number = |link: &mut Link, outgoing: Outgoing| {
        let refusal = link.send(&outgoing, &mut buffer).unwrap_err();
        refusal.number()
    };
    let mut client = Link::new(Side::Client, true);
    assert_eq!(number(&mut client, Outgoing::Ping(1)), 5);
    assert_eq!(client.receive(&[], 0), Err(Refusal::NotOurTurn));
    sent(&mut client, NONCE_OUT);
    assert_eq!(number(&mut client, NONCE_OUT), 22);
    let mut pair = Pair::new(true, true).open();
    assert_eq!(number(&mut pair.client, NONCE_OUT), 5);
    assert_eq!(number(&mut pair.client, Outgoing::Pong), 21);
    assert_eq!(number(&mut pair.server, invoke(b"")), 19);
    let zero = Message::Result(0, Outcome::Payload(&b""[..]));
    assert_eq!(number(&mut pair.client, Outgoing::Message(zero)), 19);
    assert_eq!(number(&mut pair.server, Outgoing::Message(zero)), 12);
    assert!(!pair.client.is_closed() && !pair.server.is_closed());
}

#[test]
fn one_ping_at_a_time_each_way() {
    let mut pair = Pair::new(false, false).open();
    let mut buffer = [0; 24];
    pair.pass(Side::Client, Outgoing::Ping(8));
    let second = pair.client.send(&Outgoing::Ping(9), &mut buffer);
    assert_eq!(second, Err(Refusal::PingOutOfTurn));
    let (pong, _) = pair.pass(Side::Server, Outgoing::Pong);
    assert_eq!(pong[12..20], [8, 0, 0, 0, 0, 0, 0, 0]);
    pair.pass(Side::Client, Outgoing::Ping(9));
    let (number, checksum) = pair.server.expected();
    let again = packet::whole(number, PING, &[9; 8], checksum);
    assert_eq!(pair.server.receive(&again, 0), Err(Refusal::PingOutOfTurn));
    assert!(pair.server.is_closed());
    assert_eq!(pair.server.receive(&[], 0), Err(Refusal::LinkClosed));
}

#[test]
fn a_refused_send_leaves_link_and_buffer() {
    let mut pair = Pair::new(true, true).open();
    let mut buffer = [0xa5; 28];
    let short = pair.client.send(&invoke(b"12345"), &mut buffer);
    assert_eq!(short, Err(Refusal::BufferTooSmall));
    assert_eq!(buffer, [0xa5; 28]);
    assert_eq!(pair.client.send(&invoke(b"1234"), &mut buffer), Ok(28));
    assert_eq!(packet_number(&buffer), 0);
}

#[test]
fn a_message_too_long_is_2() {
    let mut pair = Pair::new(true, true).open();
    let payload = vec![0; 16_777_215 - 16 - 8 + 1];
    let sent = |link: &mut Link, payload| link.send(&invoke(payload), &mut []);
    let over = sent(&mut pair.client, &payload);
    assert_eq!(over, Err(Refusal::LengthTooLong));
    let exact = sent(&mut pair.client, &payload[1..]);
    assert_eq!(exact, Err(Refusal::BufferTooSmall));
}

#[test]
fn a_packet_of_the_wrong_way_passes_the_link() {
    let mut pair = Pair::new(true, false).open();
    let (number, checksum) = pair.client.expected();
    let packet = packet::whole(number, values::INVOKE, &[], checksum);
    assert!(pair.client.receive(&packet, 0).is_ok());
}
