//! The Nonces of two links, read at both ends, and the keys that both derive
//! from them.

use crate::{pattern, SIDES};
use relay::keys::{derive, Derivation, End, Ends, NonceFields, INIT_MESSAGE_MOST};
use relay::{checksum, packet_type, Arrival, Link, Moment, Refusal, Settings, Side, ToSend};

const CLIENT_TIME: Moment = Moment {
    time: 1_700_000_000,
};
const SERVER_TIME: Moment = Moment {
    time: 1_700_000_007,
};
const CLIENT_RANDOM: [u8; 16] = *b"abcdefghijklmnop";
const SERVER_RANDOM: [u8; 16] = *b"ABCDEFGHIJKLMNOP";

/// The bodies of both Nonces, as one end has them.
#[derive(Debug, PartialEq, Eq)]
struct Nonces {
    client: Vec<u8>,
    server: Vec<u8>,
}

/// The body of a packet that was written.
fn body(packet: &[u8]) -> Vec<u8> {
    packet[12..packet.len() - 4].to_vec()
}

fn sent(link: &mut Link, random: [u8; 16], moment: Moment) -> Vec<u8> {
    let mut buf = [0; 76];
    let nonce = ToSend::Nonce { random };
    let size = link.send(&mut buf, nonce, moment).unwrap();
    buf[..size].to_vec()
}

fn received(link: &mut Link, packet: &[u8], moment: Moment) -> Vec<u8> {
    match link.receive(packet, moment) {
        Arrival::Packet { kind, body, .. } => {
            assert_eq!(kind, packet_type::NONCE);
            body.to_vec()
        }
        other => panic!("{other:?}"),
    }
}

/// What the client has and what the server has, after both Nonces went over.
fn exchanged(key: &[u8]) -> [Nonces; 2] {
    let link = |side| Link::with_key(Settings::new(side, true), key).unwrap();
    let [mut client, mut server] = SIDES.map(link);
    let first = sent(&mut client, CLIENT_RANDOM, CLIENT_TIME);
    let at_server = received(&mut server, &first, SERVER_TIME);
    let second = sent(&mut server, SERVER_RANDOM, SERVER_TIME);
    let at_client = received(&mut client, &second, CLIENT_TIME);
    let clients = Nonces {
        client: body(&first),
        server: at_client,
    };
    let servers = Nonces {
        client: at_server,
        server: body(&second),
    };
    [clients, servers]
}

/// The keys for what one side sends, by the Nonces that one end has.
fn keys(nonces: &Nonces, sender: Side, key: &[u8]) -> ([u8; 32], [u8; 16]) {
    let client = NonceFields::read(&nonces.client).unwrap();
    let server = NonceFields::read(&nonces.server).unwrap();
    let end = |nonce: NonceFields, ip, port| End {
        random: *nonce.random,
        time: nonce.time,
        ip,
        port,
    };
    let what = Derivation {
        version: server.version,
        sender,
        ends: Ends {
            client: end(client, 0x7f00_0001, 50_000),
            server: end(server, 0x7f00_0002, 2400),
        },
        shared: [0x55; 32],
    };
    let mut buf = [0; INIT_MESSAGE_MOST];
    let keys = derive(&mut buf, &what, key).unwrap();
    (keys.key, keys.vector)
}

#[test]
fn a_nonce_that_a_link_sends_is_read_back() {
    let [clients, servers] = exchanged(&pattern(32));
    assert_eq!(clients, servers);
    let expected = NonceFields {
        version: 2,
        time: CLIENT_TIME.time,
        random: &CLIENT_RANDOM,
        point: Some(&[0; 32]),
    };
    assert_eq!(NonceFields::read(&servers.client), Ok(expected));
    let expected = NonceFields {
        time: SERVER_TIME.time,
        random: &SERVER_RANDOM,
        ..expected
    };
    assert_eq!(NonceFields::read(&clients.server), Ok(expected));
}

#[test]
fn both_ends_derive_the_same_keys() {
    let key = pattern(32);
    let [clients, servers] = exchanged(&key);
    let [up, down] = SIDES.map(|sender| {
        let keys = [&clients, &servers].map(|nonces| keys(nonces, sender, &key));
        assert_eq!(keys[0], keys[1]);
        keys[0]
    });
    assert!(up.0 != down.0 && up.1 != down.1);
    let other = keys(&clients, Side::Client, &pattern(33));
    assert!(up.0 != other.0 && up.1 != other.1);
}

/// The packet of a client before version 2: a Nonce without the point.
fn old_nonce(version: u8) -> Vec<u8> {
    let mut packet = vec![44, 0, 0, 0, 0xfe, 0xff, 0xff, 0xff];
    packet.extend(packet_type::NONCE.to_le_bytes());
    packet.extend([0, 0, 0, 0, 0, version, 0, 0]);
    packet.extend(CLIENT_TIME.time.to_le_bytes());
    packet.extend(CLIENT_RANDOM);
    packet.extend(checksum::crc32(&packet).to_le_bytes());
    packet
}

#[test]
fn an_old_client_and_our_server_speak_the_old_version() {
    let key = pattern(32);
    for version in [0, 1] {
        let mut server = Link::with_key(Settings::new(Side::Server, true), &key).unwrap();
        let first = old_nonce(version);
        let nonces = Nonces {
            client: received(&mut server, &first, SERVER_TIME),
            server: body(&sent(&mut server, SERVER_RANDOM, SERVER_TIME)),
        };
        assert_eq!(nonces.client, body(&first));
        let read = [&nonces.client, &nonces.server].map(|body| NonceFields::read(body).unwrap());
        assert_eq!(read.map(|nonce| nonce.version), [version; 2]);
        assert_eq!(read.map(|nonce| nonce.point), [None; 2]);
        let [up, down] = SIDES.map(|sender| keys(&nonces, sender, &key));
        assert!(up.0 != down.0 && up.1 != down.1);
    }
}

#[test]
fn a_nonce_that_is_cut_or_too_long() {
    let whole = pattern(70);
    for version in 0..=u8::MAX {
        let mut body = whole.clone();
        body[5] = version;
        for n in 0..=body.len() {
            let needed = if version < 2 { 28 } else { 60 };
            let expected = if n < needed {
                Err(Refusal::OPENING_SHORT)
            } else {
                Ok(NonceFields {
                    version,
                    time: u32::from_le_bytes(*body[8..].first_chunk().unwrap()),
                    random: body[12..].first_chunk().unwrap(),
                    point: (version >= 2).then(|| body[28..].first_chunk().unwrap()),
                })
            };
            assert_eq!(NonceFields::read(&body[..n]), expected, "{version}, {n}");
        }
    }
}
