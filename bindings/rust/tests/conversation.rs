//! Two links against each other: opening, keep-alive, an invoke and its result.

use relay::{
    checksum, clock_difference, net_pids, packet_type, read_message, Answer, Arrival, Invoke, Link,
    Message, Moment, NetPid, NetPids, Refusal, Settings, Side, ToSend,
};

const CLIENT_TIME: Moment = Moment {
    time: 1_700_000_000,
};
const SERVER_TIME: Moment = Moment {
    time: 1_700_000_007,
};
const NONCE: ToSend = ToSend::Nonce { random: [7; 16] };
const PIDS: NetPids = NetPids {
    sender: NetPid {
        ip: 1,
        port: 2,
        pid: 3,
        start: 4,
    },
    peer: NetPid {
        ip: 5,
        port: 6,
        pid: 7,
        start: 8,
    },
};
const HANDSHAKE: ToSend = ToSend::Handshake {
    sender: PIDS.sender,
    peer: PIDS.peer,
};

fn link(side: Side, crc32c: bool) -> Link {
    Link::new(Settings::new(side, crc32c)).unwrap()
}

/// A link that takes versions from `lowest` up.
fn link_from(side: Side, lowest: u8) -> Link {
    Link::new(Settings::new(side, true).with_lowest(lowest)).unwrap()
}

struct Pair {
    client: Link,
    server: Link,
}

impl Pair {
    /// Sends from one side and receives at the other; the type and the body.
    fn pass(&mut self, sender: Side, what: ToSend) -> (u32, Vec<u8>) {
        let (from, to, sent_at, received_at) = match sender {
            Side::Client => (&mut self.client, &mut self.server, CLIENT_TIME, SERVER_TIME),
            Side::Server => (&mut self.server, &mut self.client, SERVER_TIME, CLIENT_TIME),
        };
        let mut buf = [0xee; 300];
        let size = from.send(&mut buf, what, sent_at).unwrap();
        assert!(buf[size..].iter().all(|&byte| byte == 0xee));
        for cut in 0..size {
            let more = match cut {
                0..4 => 4 - cut,
                4..12 => 12 - cut,
                _ => size - cut,
            };
            let incomplete = Arrival::Incomplete(more);
            assert_eq!(to.receive(&buf[..cut], received_at), incomplete);
        }
        match to.receive(&buf, received_at) {
            Arrival::Packet {
                kind,
                consumed,
                body,
            } => {
                assert_eq!(consumed, size);
                (kind, body.to_vec())
            }
            other => panic!("{other:?}"),
        }
    }

    fn open(client: bool, server: bool) -> Pair {
        Pair::opened(link(Side::Client, client), link(Side::Server, server))
    }

    fn opened(client: Link, server: Link) -> Pair {
        let mut pair = Pair { client, server };
        let (kind, nonce) = pair.pass(Side::Client, NONCE);
        assert_eq!(kind, packet_type::NONCE);
        assert_eq!(clock_difference(&nonce, SERVER_TIME), Some(-7));
        pair.pass(Side::Server, NONCE);
        let (_, handshake) = pair.pass(Side::Client, HANDSHAKE);
        assert_eq!(net_pids(&handshake), PIDS);
        assert!(!pair.client.is_open() && !pair.server.is_open());
        let (_, handshake) = pair.pass(Side::Server, HANDSHAKE);
        assert_eq!(net_pids(&handshake), PIDS);
        assert!(pair.client.is_open() && pair.server.is_open());
        pair
    }
}

const SETTINGS: [(bool, bool); 4] = [(false, false), (false, true), (true, false), (true, true)];

#[test]
fn every_pair_of_lowest_versions_opens() {
    for client in 0..=2 {
        for server in 0..=2 {
            Pair::opened(
                link_from(Side::Client, client),
                link_from(Side::Server, server),
            );
        }
    }
}

/// The first packet of an old program: a Nonce without the DH point.
fn old_nonce(version: u8) -> Vec<u8> {
    let mut packet = vec![44, 0, 0, 0, 0xfe, 0xff, 0xff, 0xff];
    packet.extend(packet_type::NONCE.to_le_bytes());
    packet.extend([0, 0, 0, 0, 0, version, 0, 0]);
    packet.extend(CLIENT_TIME.time.to_le_bytes());
    packet.extend([7; 16]);
    packet.extend(checksum::crc32(&packet).to_le_bytes());
    packet
}

#[test]
fn an_old_peer_is_refused_by_a_link_whose_lowest_version_is_above() {
    for side in [Side::Client, Side::Server] {
        for (version, lowest) in [(0, 0), (0, 1), (0, 2), (1, 0), (1, 1), (1, 2)] {
            let mut link = link_from(side, lowest);
            if side == Side::Client {
                link.send(&mut [0; 76], NONCE, CLIENT_TIME).unwrap();
            }
            let packet = old_nonce(version);
            let arrival = link.receive(&packet, CLIENT_TIME);
            if version < lowest {
                assert_eq!(arrival, Arrival::Refused(Refusal::VERSION_TOO_OLD));
                let after = link.receive(&[], CLIENT_TIME);
                assert_eq!(after, Arrival::Refused(Refusal::LINK_CLOSED));
            } else {
                assert!(matches!(arrival, Arrival::Packet { consumed: 44, .. }));
            }
            assert_eq!(link.is_closed(), version < lowest);
        }
    }
}

#[test]
fn keep_alive_in_both_directions() {
    for (client, server) in SETTINGS {
        let mut pair = Pair::open(client, server);
        for (one, other) in [(Side::Client, Side::Server), (Side::Server, Side::Client)] {
            let ping = ToSend::Ping {
                id: 0x0807_0605_0403_0201,
            };
            let id = [1, 2, 3, 4, 5, 6, 7, 8].to_vec();
            assert_eq!(pair.pass(one, ping), (packet_type::PING, id.clone()));
            assert_eq!(pair.pass(other, ToSend::Pong), (packet_type::PONG, id));
        }
    }
}

#[test]
fn an_invoke_and_its_result() {
    for (client, server) in SETTINGS {
        let mut pair = Pair::open(client, server);
        let invoke = Message::Invoke(Invoke {
            number: -77,
            actor: Some(5),
            timeout: Some(300),
            tl2: false,
            payload: b"request",
        });
        let (kind, body) = pair.pass(Side::Client, ToSend::Message(invoke));
        assert_eq!(read_message(Side::Server, kind, &body), Ok(invoke));
        let answers = [
            Answer::Payload(b"page"),
            Answer::Error {
                code: -3000,
                text: b"timeout",
            },
        ];
        for answer in answers {
            let result = Message::Result {
                number: -77,
                answer,
            };
            let (kind, body) = pair.pass(Side::Server, ToSend::Message(result));
            assert_eq!(read_message(Side::Client, kind, &body), Ok(result));
        }
    }
}

/// It is sent like none, whatever else the invoke has, and heard as none.
#[test]
fn a_timeout_of_0_is_none() {
    for (client, server) in SETTINGS {
        let mut pair = Pair::open(client, server);
        for (actor, tl2) in [
            (None, false),
            (None, true),
            (Some(5), false),
            (Some(0), true),
        ] {
            let with = |timeout| {
                Message::Invoke(Invoke {
                    number: 1,
                    actor,
                    timeout,
                    tl2,
                    payload: b"request",
                })
            };
            let [none, zero, one] = [None, Some(0), Some(1)].map(|timeout| {
                let (kind, body) = pair.pass(Side::Client, ToSend::Message(with(timeout)));
                let meant = with(timeout.filter(|&ms| ms != 0));
                assert_eq!(read_message(Side::Server, kind, &body), Ok(meant));
                body
            });
            assert_eq!(zero, none);
            assert!(one.len() > none.len());
        }
    }
}

#[test]
fn the_short_messages() {
    let mut pair = Pair::open(true, true);
    for message in [Message::Cancel { number: 9 }, Message::ClientFin] {
        let (kind, body) = pair.pass(Side::Client, ToSend::Message(message));
        assert_eq!(read_message(Side::Server, kind, &body), Ok(message));
    }
    let (kind, body) = pair.pass(Side::Server, ToSend::Message(Message::ServerFin));
    assert_eq!(
        read_message(Side::Client, kind, &body),
        Ok(Message::ServerFin)
    );
}

#[test]
fn refused_sends_leave_link_and_buffer() {
    let mut client = link(Side::Client, true);
    let mut buf = [0xee; 75];
    let short = client.send(&mut buf, NONCE, CLIENT_TIME);
    assert_eq!(short, Err(Refusal::BUFFER_TOO_SMALL));
    let early = client.send(&mut buf, ToSend::Ping { id: 1 }, CLIENT_TIME);
    assert_eq!(early, Err(Refusal::TYPE_NOT_ALLOWED));
    assert_eq!(buf, [0xee; 75]);
    assert_eq!(client, link(Side::Client, true));

    let mut pair = Pair::open(true, false);
    let before = pair.server.clone();
    let fin = ToSend::Message(Message::ClientFin);
    let wrong_way = pair.server.send(&mut buf, fin, SERVER_TIME);
    assert_eq!(wrong_way, Err(Refusal::TYPE_NOT_RPC));
    let pong = pair.server.send(&mut buf, ToSend::Pong, SERVER_TIME);
    assert_eq!(pong, Err(Refusal::PING_OUT_OF_TURN));
    assert_eq!(pair.server, before);
}

#[test]
fn a_packet_twice_closes_the_link() {
    let mut pair = Pair::open(false, false);
    let mut buf = [0; 24];
    let ping = ToSend::Ping { id: 1 };
    pair.client.send(&mut buf, ping, CLIENT_TIME).unwrap();
    pair.server.receive(&buf, SERVER_TIME);
    let again = pair.server.receive(&buf, SERVER_TIME);
    assert_eq!(again, Arrival::Refused(Refusal::PACKET_NUMBER));
    assert!(pair.server.is_closed());
    let after = pair.server.receive(&[], SERVER_TIME);
    assert_eq!(after, Arrival::Refused(Refusal::LINK_CLOSED));
}

#[test]
fn a_payload_longer_than_any_packet() {
    let mut pair = Pair::open(true, true);
    let payload = vec![1; 16_777_215 - 16 - 8 + 1];
    let mut buf = vec![0xee; 16_777_215];
    let mut send = |payload| {
        let invoke = Invoke {
            number: 1,
            actor: None,
            timeout: None,
            tl2: false,
            payload,
        };
        let what = ToSend::Message(Message::Invoke(invoke));
        pair.client.send(&mut buf, what, CLIENT_TIME)
    };
    assert_eq!(send(&payload), Err(Refusal::LENGTH_OVER_LIMIT));
    assert_eq!(send(&payload[1..]), Ok(16_777_215));
    let arrival = pair.server.receive(&buf, SERVER_TIME);
    assert!(matches!(arrival, Arrival::Packet { body, .. } if body[8..] == payload[1..]));
}
