//! Bytes and numbers that no honest peer sends: every call answers.

#[path = "common/random.rs"]
mod random;

use random::Random;
use relay::keys::NonceFields;
use relay::{
    checksum, clock_difference, net_pids, packet_type, read_message, Arrival, FrontNumber, Invoke,
    Link, Message, Moment, NetPid, NetPids, Peer, PublisherNumber, Refusal, Settings, Side, Table,
    ToSend,
};
use std::collections::BTreeSet;
use std::num::NonZeroU32;

const NOW: Moment = Moment { time: 0 };
const SIDES: [Side; 2] = [Side::Client, Side::Server];

impl Random {
    /// A link with any settings that are not refused.
    fn link(&mut self, side: Side, padded: bool) -> Link {
        let settings = Settings::new(side, self.below(2) == 0);
        let lowest = self.below(3) as u8;
        Link::new(settings.with_lowest(lowest).with_padded(padded)).unwrap()
    }
}

#[test]
fn lowest_versions_of_all_sizes() {
    for lowest in 0..=255 {
        for side in SIDES {
            let refusal = Link::new(Settings::new(side, true).with_lowest(lowest)).err();
            let expected = (lowest > 2).then_some(Refusal::OUT_OF_RANGE);
            assert_eq!(refusal, expected, "{lowest}");
        }
    }
}

#[test]
fn keys_of_all_sizes() {
    let key = [1; 5000];
    for n in 0..=5000 {
        for side in SIDES {
            let refusal = Link::with_key(Settings::new(side, true), &key[..n]).err();
            let unsuitable = !(32..=4096).contains(&n);
            let expected = unsuitable.then_some(Refusal::UNSUITABLE_KEY);
            assert_eq!(refusal, expected, "{n}");
        }
    }
}

#[test]
fn lengths_of_all_sizes() {
    let server = || Link::new(Settings::new(Side::Server, true)).unwrap();
    for (length, number) in [
        (0, 1),
        (15, 1),
        (1024, 3),
        (16_777_215, 3),
        (16_777_216, 3),
        (u32::MAX, 3),
    ] {
        let bytes = u32::to_le_bytes(length);
        match server().receive(&bytes, NOW) {
            Arrival::Refused(refusal) => assert_eq!(refusal.number(), number),
            other => panic!("{other:?}"),
        }
    }
    for length in [16, 1023] {
        let bytes = u32::to_le_bytes(length);
        let arrival = server().receive(&bytes, NOW);
        assert_eq!(arrival, Arrival::Incomplete(8));
    }
}

#[test]
fn random_bytes_at_either_side() {
    let mut random = Random(1);
    for n in 0..2000 {
        let bytes = random.bytes(n % 100);
        for side in SIDES {
            let padded = random.below(2) == 0;
            let mut link = random.link(side, padded);
            let arrival = link.receive(&bytes, NOW);
            match (side, arrival) {
                (Side::Client, answer) => {
                    assert_eq!(answer, Arrival::Refused(Refusal::NOT_OUR_TURN));
                }
                (Side::Server, Arrival::Refused(_)) => assert!(link.is_closed()),
                (Side::Server, Arrival::Incomplete(_)) => assert!(!link.is_closed()),
                (Side::Server, packet) => panic!("{packet:?}"),
            }
        }
    }
}

/// The links of a client and a server after their opening.
fn opened(random: &mut Random, padded: bool) -> [Link; 2] {
    let mut links = SIDES.map(|side| random.link(side, padded));
    let nonce = ToSend::Nonce { random: [7; 16] };
    let pid = NetPid::default();
    let handshake = ToSend::Handshake {
        sender: pid,
        peer: pid,
    };
    for (from, what) in [(0, nonce), (1, nonce), (0, handshake), (1, handshake)] {
        let mut buf = [0; 76];
        let size = links[from].send(&mut buf, what, NOW).unwrap();
        links[1 - from].receive(&buf[..size], NOW);
    }
    assert!(links.iter().all(Link::is_open));
    links
}

/// What a client sends: up to four words, and an invoke.
fn invoke(random: &mut Random, client: &mut Link) -> Vec<u8> {
    let payload = [9; 20];
    let what = ToSend::Message(Message::Invoke(Invoke {
        number: 1,
        actor: None,
        timeout: None,
        tl2: false,
        payload: &payload[..random.below(21)],
    }));
    let mut buf = [0; 100];
    let size = client.send(&mut buf, what, NOW).unwrap();
    [&[4, 0, 0, 0].repeat(random.below(5)), &buf[..size]].concat()
}

/// A flush into a room of any size: it fits, or nothing is changed.
fn flush(random: &mut Random, link: &mut Link) {
    let mut buf = [0xee; 16];
    let room = random.below(17);
    let before = link.clone();
    match link.flush(&mut buf[..room]) {
        Ok(size) => assert!(size % 4 == 0 && size <= room.min(12) && !link.is_closed()),
        Err(refusal) => {
            assert_eq!(refusal == Refusal::LINK_CLOSED, link.is_closed());
            assert!(link.is_closed() || refusal == Refusal::BUFFER_TOO_SMALL);
            assert_eq!((&*link, buf), (&before, [0xee; 16]));
        }
    }
}

/// Some bytes of what was sent changed, some cut off, and some put behind.
fn changed(random: &mut Random, mut bytes: Vec<u8>) -> Vec<u8> {
    for _ in 0..random.below(3) {
        let at = random.below(bytes.len());
        bytes[at] = [0, 4, random.next() as u8][random.below(3)];
    }
    bytes.truncate(bytes.len() - random.below(6));
    let behind = random.below(6);
    bytes.extend(random.bytes(behind));
    bytes
}

#[test]
fn changed_words_packets_and_zeros_at_open_links() {
    let mut random = Random(5);
    let mut seen = BTreeSet::new();
    for n in 0..40_000 {
        let [mut client, mut server] = opened(&mut random, n % 8 != 0);
        let bytes = invoke(&mut random, &mut client);
        let bytes = changed(&mut random, bytes);
        match server.receive(&bytes, NOW) {
            Arrival::Refused(refusal) => {
                assert!(server.is_closed());
                seen.insert(refusal.number());
            }
            Arrival::Incomplete(more) => assert!(more > 0 && server.is_open()),
            Arrival::Packet { consumed, body, .. } => {
                assert!(consumed <= bytes.len() && body.len() + 16 <= consumed);
            }
        }
        flush(&mut random, &mut server);
        flush(&mut random, &mut client);
    }
    assert_eq!(Vec::from_iter(seen), [1, 2, 4, 6, 25, 26]);
}

#[test]
fn random_bodies_of_messages() {
    let mut random = Random(2);
    let kinds = [
        packet_type::INVOKE,
        packet_type::CANCEL,
        packet_type::CLIENT_FIN,
        packet_type::RESULT,
        packet_type::OLD_ERROR,
        packet_type::SERVER_FIN,
        packet_type::PING,
        0,
    ];
    for n in 0..4000 {
        let body = random.bytes(n % 80);
        for side in SIDES {
            for kind in kinds {
                // What it lends back is a part of the body, or this panics.
                let _ = read_message(side, kind, &body);
            }
        }
        clock_difference(&body, NOW);
        // The same of its random bytes and its point.
        let _ = NonceFields::read(&body);
        assert_eq!(checksum::crc32_update(0, &body), checksum::crc32(&body));
        assert_eq!(checksum::crc32c_update(0, &body), checksum::crc32c(&body));
    }
}

#[test]
fn a_handshake_that_is_cut_or_too_long() {
    let bytes = Random(4).bytes(40);
    for n in 0..=40 {
        let mut whole = bytes[..n].to_vec();
        whole.resize(28, 0);
        assert_eq!(net_pids(&bytes[..n]), net_pids(&whole), "{n}");
    }
    let cut = NetPids {
        sender: NetPid {
            ip: 0x0403_0201,
            port: 5,
            ..NetPid::default()
        },
        ..NetPids::default()
    };
    assert_eq!(net_pids(&[0, 0, 0, 0, 1, 2, 3, 4, 5]), cut);
    assert_eq!(net_pids(&[]), NetPids::default());
}

#[test]
fn a_text_that_claims_more_than_there_is() {
    let mut body = 1_i64.to_le_bytes().to_vec();
    body.extend([1, 0, 0, 0, 254, 0xff, 0xff, 0xff]);
    let read = read_message(Side::Client, packet_type::OLD_ERROR, &body);
    assert_eq!(read, Err(Refusal::MESSAGE_CUT));
}

#[test]
fn numbers_out_of_any_range_at_the_table() {
    let mut table = Table::new(PublisherNumber(i64::MAX)).unwrap();
    let mut random = Random(3);
    let mut out = [0; 7];
    for _ in 0..20_000 {
        let (a, b, number) = (random.next() as u8, random.next() as u8, random.next());
        let number = [0, 1, -1, i64::MAX, i64::MIN, number as i64][number as usize % 6];
        let _ = table.ask(a % 40, FrontNumber(number), b % 10);
        let _ = table.reply(a % 10, PublisherNumber(number));
        let _ = table.cancel(a % 40, FrontNumber(number));
        let room = usize::from(a % 8);
        for peer in [Peer::Front(b), Peer::Publisher(b)] {
            let _ = table.gone(peer, &mut out[..room]).map(drop);
        }
        let time = random.next() >> random.below(64);
        let timeout = NonZeroU32::new(random.next() as u32 >> random.below(32));
        let asked = table.ask_by(a % 40, FrontNumber(number), b % 10, time, timeout);
        let ran_out = table.run_out(time, &mut out[..room]).map(drop);
        if time >= 1 << 62 {
            assert_eq!(asked, Err(Refusal::OUT_OF_RANGE));
            assert_eq!(ran_out, Err(Refusal::OUT_OF_RANGE));
        }
    }
}

#[test]
fn published_checksums() {
    assert_eq!(checksum::crc32(b"123456789"), 0xcbf4_3926);
    assert_eq!(checksum::crc32c(b"123456789"), 0xe306_9283);
    assert_eq!(checksum::crc32(b""), 0);
    let whole = checksum::crc32c_update(checksum::crc32c(b"1234"), b"56789");
    assert_eq!(whole, 0xe306_9283);
}
