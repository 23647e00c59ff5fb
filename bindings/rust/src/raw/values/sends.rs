//! Outgoing, Sent, and the fields of a link that a send reads and writes.

use super::*;
use crate::packet_type::*;
use crate::NetPid;

/// Every field has a value that no other has.
const ALL: Outgoing = Outgoing {
    kind: 0,
    error: true,
    hasactor: true,
    hastimeout: true,
    tl2: true,
    timeout: 0x2122_2324,
    code: -0x0a0b_0c0d,
    number: 0x3132_3334_3536_3738,
    actor: -0x4142_4344_4546_4748,
    id: 0x5152_5354_5556_5758,
    random: *b"ABCDEFGHIJKLMNOP",
    sender: NetPid {
        ip: 0x6162_6364,
        port: 0x6566,
        pid: 0x6768,
        start: 0x696a_6b6c,
    },
    peer: NetPid {
        ip: 0x7172_7374,
        port: 0x7576,
        pid: 0x7778,
        start: 0x797a_7b7c,
    },
    point: *b"QRSTUVWXYZ0123456789abcdefghijkl",
};

/// What is sent at a stage: the body, and the link afterwards.
fn sent(server: bool, stage: u8, kind: u32, payload: &[u8]) -> (Vec<u8>, Link) {
    let mut link = Link {
        stage,
        sends: 0x0a0b_0c0d,
        version: 1,
        keyid: 0x99aa_bbcc,
        owes: true,
        owed: 0x6152_4334_2516_0718,
        ..link(server, true)
    };
    let mut buf = [0xee; 200];
    let sent = send(&mut link, &mut buf, payload, Outgoing { kind, ..ALL });
    assert_eq!(sent.refusal, 0);
    let body = &buf[12..sent.size - 4];
    assert_eq!(buf[..sent.size], packet(0x0a0b_0c0d, kind, body));
    assert_eq!(buf[sent.size..], vec![0xee; 200 - sent.size]);
    assert_eq!((link.sends, link.keyid), (0x0a0b_0c0e, 0x99aa_bbcc));
    (body.to_vec(), link)
}

#[test]
fn nonce_takes_time_random_and_version() {
    for (server, stage, version) in [(false, 0, 2), (true, 1, 1)] {
        let (body, link) = sent(server, stage, NONCE, &[]);
        let front = [0, 0, 0, 0, 0, version, 0, 0, 1, 2, 3, 4];
        assert_eq!(body, [&front[..], &ALL.random, &[0; 32]].concat());
        assert_eq!(link.stage, stage + 1);
    }
}

#[test]
fn handshake_takes_both_netpids() {
    let (body, link) = sent(false, 2, HANDSHAKE, &[]);
    let sender = *b"dcbafehglkji";
    let peer = *b"tsrqvuxw|{zy";
    assert_eq!(body, [&[0, 8, 0, 0][..], &sender, &peer].concat());
    assert_eq!(link.stage, 3);
}

#[test]
fn ping_takes_the_id_and_pong_the_owed_one() {
    let (body, link) = sent(true, 4, PING, &[]);
    assert_eq!(body, ALL.id.to_le_bytes());
    assert!(link.awaits);
    assert_eq!(link.awaited, ALL.id);
    let (body, link) = sent(true, 4, PONG, &[]);
    assert_eq!(body, 0x6152_4334_2516_0718_u64.to_le_bytes());
    assert!(!link.owes);
}

#[test]
fn invoke_takes_number_actor_timeout_and_marker() {
    let (body, _) = sent(false, 4, INVOKE, b"payload");
    let expected = [
        &ALL.number.to_le_bytes()[..],
        &0xf0a5_acf7_u32.to_le_bytes(),
        &ALL.actor.to_le_bytes(),
        &(1_u32 << 23).to_le_bytes(),
        &ALL.timeout.to_le_bytes(),
        &0x2932_4c54_u32.to_le_bytes(),
        b"payload",
    ];
    assert_eq!(body, expected.concat());
}

#[test]
fn the_flags_of_an_invoke_one_at_a_time() {
    let size = |hasactor, hastimeout, tl2| {
        let mut link = Link {
            stage: 4,
            ..link(false, false)
        };
        let outgoing = Outgoing {
            kind: INVOKE,
            hasactor,
            hastimeout,
            tl2,
            ..ALL
        };
        send(&mut link, &mut [0; 100], b"", outgoing).size
    };
    assert_eq!(size(false, false, false), 24);
    assert_eq!(size(true, false, false), 36);
    assert_eq!(size(false, true, false), 36);
    assert_eq!(size(false, false, true), 28);
}

/// The same bytes as without one, into as little room, and the same link.
#[test]
fn a_timeout_of_0_is_none() {
    for (hasactor, tl2) in [(false, false), (false, true), (true, false), (true, true)] {
        let sent = |hastimeout, timeout, room: usize| {
            let mut link = Link {
                stage: 4,
                ..link(false, true)
            };
            let outgoing = Outgoing {
                kind: INVOKE,
                hasactor,
                hastimeout,
                timeout,
                tl2,
                ..ALL
            };
            let mut buf = [0xee; 100];
            let answer = send(&mut link, &mut buf[..room], b"payload", outgoing);
            (answer, buf, link)
        };
        let none = sent(false, 0, 100);
        let size = none.0.size;
        for room in [100, size, size - 1, 0] {
            assert_eq!(sent(true, 0, room), sent(false, 0, room));
        }
        assert!(sent(true, 1, 100).0.size > size);
    }
}

#[test]
fn result_takes_number_and_code() {
    let (body, _) = sent(true, 4, RESULT, b"bad");
    let expected = [
        &ALL.number.to_le_bytes()[..],
        &0xb527_877d_u32.to_le_bytes(),
        &ALL.code.to_le_bytes(),
        b"\x03bad",
    ];
    assert_eq!(body, expected.concat());
    let mut server = Link {
        stage: 4,
        ..link(true, true)
    };
    let mut buf = [0; 27];
    let page = Outgoing {
        kind: RESULT,
        error: false,
        ..ALL
    };
    let answer = send(&mut server, &mut buf, b"bad", page);
    let written = Sent {
        refusal: 0,
        size: 27,
    };
    assert_eq!(answer, written);
    assert_eq!(buf[20..23], *b"bad");
}

#[test]
fn a_refused_send_has_a_number_and_no_size() {
    let mut closed = Link {
        closed: true,
        ..link(false, true)
    };
    let refused = Sent {
        refusal: 20,
        size: 0,
    };
    let answer = send(
        &mut closed,
        &mut [0; 100],
        b"",
        Outgoing { kind: NONCE, ..ALL },
    );
    assert_eq!(answer, refused);
}
