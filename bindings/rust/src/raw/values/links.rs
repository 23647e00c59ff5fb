//! Moment, Link, Arrival, Part, Clock.

use super::*;
use crate::packet_type::{HANDSHAKE, NONCE, PING, PONG};
use crate::{NetPid, NetPids};

/// A link in the middle of a conversation, every field by hand.
pub(super) const TALKING: Link = Link {
    set: settings(true, false),
    closed: false,
    crc32c: false,
    version: 1,
    stage: 4,
    phase: 2,
    awaits: true,
    owes: true,
    ciphered: false,
    keyid: 0x99aa_bbcc,
    sends: 0x1122_3344,
    gets: 0x5566_7788,
    awaited: 0x0102_0304_0506_0708,
    owed: 0x1112_1314_1516_1718,
};

#[test]
fn the_opening_writes_version_stage_gets_and_crc32c() {
    let mut server = link(true, true);
    receive(&mut server, &packet(FIRST_PACKET, NONCE, &nonce(77, 5)), 5);
    assert_eq!((server.version, server.stage), (77, 1));
    assert_eq!(
        (server.sends, server.gets),
        (FIRST_PACKET, FIRST_PACKET + 1)
    );
    server.stage = 2;
    let mut flags = vec![0; 28];
    flags[1] = 8;
    receive(&mut server, &packet(FIRST_PACKET + 1, HANDSHAKE, &flags), 5);
    assert!(server.crc32c && !server.closed);
    assert_eq!((server.version, server.stage, server.gets), (77, 3, 0));
}

#[test]
fn receiving_reads_gets_awaited_and_owes() {
    let pong = packet(TALKING.gets, PONG, &TALKING.awaited.to_le_bytes());
    let mut answered = TALKING;
    let arrival = receive(&mut answered, &[&pong[..], b"more"].concat(), 0);
    let expected = Arrival {
        tag: 2,
        refusal: 0,
        kind: PONG,
        more: 0,
        consumed: 24,
        at: 12,
        len: 8,
    };
    assert_eq!(arrival, expected);
    let after = Link {
        gets: TALKING.gets + 1,
        awaits: false,
        ..TALKING
    };
    assert_eq!(answered, after);

    // A second Ping before we answered the first.
    let ping = packet(TALKING.gets, PING, &[9; 8]);
    let mut closed = TALKING;
    assert_eq!(receive(&mut closed, &ping, 0).refusal, 21);
    assert!(closed.closed);
    assert_eq!(receive(&mut closed, &ping, 0).refusal, 20);

    let mut owing = Link {
        owes: false,
        ..TALKING
    };
    assert_eq!(receive(&mut owing, &ping, 0).tag, 2);
    assert!(owing.owes);
    assert_eq!(owing.owed, 0x0909_0909_0909_0909);
}

#[test]
fn receiving_reads_stage_crc32c_and_side() {
    let ping = packet(TALKING.gets, PING, &[9; 8]);
    let refusal = |link: Link| receive(&mut { link }, &ping, 0).refusal;
    let in_stage = |stage, server| Link {
        stage,
        set: settings(server, false),
        ..TALKING
    };
    assert_eq!(refusal(in_stage(0, true)), 5);
    assert_eq!(refusal(in_stage(1, true)), 22);
    assert_eq!(refusal(in_stage(0, false)), 22);
    let other_checksum = Link {
        crc32c: true,
        ..TALKING
    };
    assert_eq!(refusal(other_checksum), 6);
}

#[test]
fn receiving_reads_the_time_and_the_setting() {
    let mut server = link(true, true);
    let bytes = packet(FIRST_PACKET, NONCE, &nonce(2, 1000));
    assert_eq!(receive(&mut server, &bytes, 969).refusal, 8);
    let granted = |allows| {
        let mut client = Link {
            stage: 3,
            ..link(false, allows)
        };
        let mut flags = vec![0; 28];
        flags[1] = 8;
        receive(&mut client, &packet(FIRST_PACKET, HANDSHAKE, &flags), 0).refusal
    };
    assert_eq!((granted(false), granted(true)), (10, 0));
}

#[test]
fn an_incomplete_packet_says_how_many_bytes_it_lacks() {
    let mut server = link(true, true);
    let arrival = receive(&mut server, &[1], 0);
    let expected = Arrival {
        tag: 1,
        refusal: 0,
        kind: 0,
        more: 3,
        consumed: 0,
        at: 0,
        len: 0,
    };
    assert_eq!(arrival, expected);
}

#[test]
fn a_part_is_where_the_arrival_says_if_it_fits() {
    let bytes = [0; 20];
    let part = |tag, at, len| {
        let arrival = Arrival {
            tag,
            refusal: 3,
            kind: 4,
            more: 5,
            consumed: 6,
            at,
            len,
        };
        unsafe { relay_body(bytes.as_ptr(), bytes.len(), arrival) }
    };
    assert_eq!(part(2, 7, 13), Part { at: 7, len: 13 });
    for nothing in [
        part(2, 7, 14),
        part(2, usize::MAX, 2),
        part(2, 2, usize::MAX),
        part(1, 7, 2),
        part(0, 7, 2),
        part(3, 7, 2),
    ] {
        assert_eq!(nothing.len, 0);
        assert!(nothing.at <= 20);
    }
}

#[test]
fn a_clock_difference_has_a_sign() {
    let clock = |theirs, time| {
        let body = nonce(2, theirs);
        unsafe { relay_clock_difference(body.as_ptr(), body.len(), Moment { time }) }
    };
    let near = |difference| Clock {
        near: true,
        difference,
    };
    assert_eq!(clock(1000, 1030), near(-30));
    assert_eq!(clock(1030, 1000), near(30));
    assert!(!clock(1031, 1000).near);
}

#[test]
fn a_handshake_names_two_processes() {
    let body = b"flagdcbafehglkjitsrqvuxw|{zyrest";
    let pids = unsafe { relay_read_netpids(body.as_ptr(), body.len()) };
    let expected = NetPids {
        sender: NetPid {
            ip: 0x6162_6364,
            port: 0x6566,
            pid: 0x6768,
            start: 0x696a_6b6c,
        },
        peer: NetPid {
            ip: 0x7172_7374,
            port: 0x7576,
            pid: 0x7778,
            start: 0x797a_7b7c,
        },
    };
    assert_eq!(pids, expected);
}
