//! Settings.padded and Link.phase: the words before a packet and the zeros
//! behind it, received, sent and flushed.

use super::links::TALKING;
use super::*;
use crate::packet_type::{HANDSHAKE, INVOKE, NONCE, PING};

/// Of no packet of the opening or the keep-alive.
const KIND: u32 = 5;

fn padded(link: Link) -> Link {
    let set = Settings {
        padded: true,
        ..link.set
    };
    Link { set, ..link }
}

fn words(n: usize) -> Vec<u8> {
    [4, 0, 0, 0].repeat(n)
}

#[test]
fn receiving_counts_words_and_zeros() {
    let bytes = [words(2), packet(TALKING.gets, KIND, b"x"), vec![0; 3]].concat();
    let mut link = padded(TALKING);
    let expected = Arrival {
        tag: 2,
        refusal: 0,
        kind: KIND,
        more: 0,
        consumed: 28,
        at: 20,
        len: 1,
    };
    let arrival = receive(&mut link, &[&bytes[..], b"more"].concat(), 0);
    assert_eq!(arrival, expected);
    let after = Link {
        gets: TALKING.gets + 1,
        ..padded(TALKING)
    };
    assert_eq!(link, after);
    for (cut, more) in [(0, 4), (6, 2), (8, 4), (19, 1), (20, 8), (25, 3), (27, 1)] {
        let arrival = receive(&mut padded(TALKING), &bytes[..cut], 0);
        assert_eq!((arrival.tag, arrival.more), (1, more), "{cut} bytes");
    }
    // The same bytes on an unpadded link: a length of 4, and no zeros.
    assert_eq!(receive(&mut { TALKING }, &bytes, 0).refusal, 1);
    let arrival = receive(&mut { TALKING }, &bytes[8..], 0);
    assert_eq!((arrival.consumed, arrival.at), (17, 12));
}

#[test]
fn a_fourth_word_and_other_padding_close_the_link() {
    let refusal = |bytes: &[u8]| {
        let mut link = padded(TALKING);
        let arrival = receive(&mut link, bytes, 0);
        let closed = Link {
            closed: true,
            ..padded(TALKING)
        };
        assert_eq!((arrival.tag, link), (0, closed));
        arrival.refusal
    };
    assert_eq!(refusal(&words(4)), 26);
    assert_eq!(refusal(&[words(3), vec![5, 0, 0, 0]].concat()), 1);
    let whole = [packet(TALKING.gets, KIND, b"x"), vec![0; 3]].concat();
    for at in 17..20 {
        let mut bytes = whole.clone();
        bytes[at] = 0x80;
        assert_eq!(refusal(&bytes), 25, "byte {at}");
        bytes[12] ^= 1;
        assert_eq!(refusal(&bytes), 6, "byte {at}, and a changed body");
    }
}

/// The phase after a packet of this type is sent, and its size.
fn sent(link: Link, kind: u32, payload: &[u8]) -> (u8, usize) {
    let mut link = link;
    let outgoing = Outgoing {
        kind,
        number: 1,
        ..Outgoing::default()
    };
    let sent = send(&mut link, &mut [0xee; 100], payload, outgoing);
    assert_eq!(sent.refusal, 0);
    (link.phase, sent.size)
}

#[test]
fn sending_counts_words_from_our_handshake_on() {
    for server in [false, true] {
        let at = |stage, phase| Link {
            stage,
            phase,
            ..padded(link(server, true))
        };
        let nonce = u8::from(server);
        assert_eq!(sent(at(nonce, 0), NONCE, b""), (0, 76));
        assert_eq!(sent(at(nonce + 2, 0), HANDSHAKE, b""), (3, 44));
        for phase in 0..4 {
            assert_eq!(sent(at(4, phase), PING, b""), ((phase + 6) % 4, 24));
        }
    }
    let client = Link {
        stage: 4,
        phase: 3,
        ..link(false, true)
    };
    for (n, size) in [(0, 24), (1, 28), (3, 28), (4, 28), (5, 32)] {
        let phase = (3 + size as u8 / 4) % 4;
        assert_eq!(sent(padded(client), INVOKE, &[9; 5][..n]), (phase, size));
        assert_eq!(sent(client, INVOKE, &[9; 5][..n]), (3, 24 + n));
    }
}

#[test]
fn flushing_reads_and_writes_the_phase() {
    for phase in 0..=u8::MAX {
        let due = [0, 3, 2, 1][usize::from(phase % 4)];
        let size = due * 4;
        let mut link = Link {
            phase,
            ..padded(TALKING)
        };
        let mut buf = [0xee; 16];
        assert_eq!(flush(&mut link, &mut buf), Sent { refusal: 0, size });
        assert_eq!(buf.to_vec(), [words(due), vec![0xee; 16 - size]].concat());
        let whole = Link {
            phase: 0,
            ..padded(TALKING)
        };
        assert_eq!(link, whole);
    }
}

#[test]
fn flushing_reads_padded_side_and_stage() {
    for stage in 0..=u8::MAX {
        for (server, is_padded) in [(false, false), (false, true), (true, false), (true, true)] {
            let set = Settings {
                padded: is_padded,
                ..settings(server, true)
            };
            let before = Link {
                set,
                stage,
                phase: 1,
                ..TALKING
            };
            let ours_was_sent = stage >= if server { 4 } else { 3 };
            let (size, phase) = if is_padded && ours_was_sent {
                (12, 0)
            } else {
                (0, 1)
            };
            let mut link = before;
            let sent = flush(&mut link, &mut vec![0; size]);
            assert_eq!(sent, Sent { refusal: 0, size }, "{before:?}");
            assert_eq!(link, Link { phase, ..before });
        }
    }
}

#[test]
fn a_refused_flush_leaves_link_and_buffer() {
    let mut link = Link {
        phase: 1,
        ..padded(TALKING)
    };
    for closed in [false, true] {
        link.closed = closed;
        let before = link;
        let refusal = if closed { 20 } else { 16 };
        for room in 0..12 {
            let mut buf = vec![0xee; room];
            assert_eq!(flush(&mut link, &mut buf), Sent { refusal, size: 0 });
            assert_eq!((link, buf), (before, vec![0xee; room]));
        }
    }
    assert_eq!(flush(&mut link, &mut [0; 16]).refusal, 20);
}
