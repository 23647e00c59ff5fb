//! Invokes whose timeout field is 0, as they are read.

use super::*;

const FLAGS: [u8; 4] = [0x5e, 0x03, 0x52, 0xe3];
const ACTOR_FLAGS: [u8; 4] = [0xf7, 0xac, 0xa5, 0xf0];
const MARKER: [u8; 4] = [0x54, 0x4c, 0x32, 0x29];
/// Masks without the timeout's bit and with it.
const NO_BIT: [u8; 4] = [0; 4];
const BIT: [u8; 4] = [0, 0, 0x80, 0];
const ZERO: [u8; 4] = [0; 4];

const PAYLOADS: [&[u8]; 5] = [b"", b"p", b"rest", b"a payload", &[0; 8]];

/// Number 1, these headers, this payload.
fn judged(headers: &[&[u8]], payload: &[u8]) -> Result<Message<Span>, Refusal> {
    read_invoke(&bytes(&[&ONE, &bytes(headers), payload]))
}

fn meaning(actor: Option<i64>, tl2: bool, at: usize, len: usize) -> Message<Span> {
    Message::Invoke(Invoke {
        number: 1,
        actor,
        timeout: None,
        tl2,
        payload: Span { at, len },
    })
}

#[test]
fn a_field_of_zero_is_no_timeout() {
    for payload in PAYLOADS {
        let len = payload.len();
        let flags = [&FLAGS[..], &BIT, &ZERO];
        let both = [&ACTOR_FLAGS[..], &FIVE, &BIT, &ZERO];
        let none = |tl2, at| Ok(meaning(None, tl2, at, len));
        let five = |tl2, at| Ok(meaning(Some(5), tl2, at, len));
        assert_eq!(judged(&flags, payload), none(false, 20));
        assert_eq!(judged(&both, payload), five(false, 28));
        let marked = |headers| bytes(&[headers, &MARKER]);
        let (flags, both) = (bytes(&flags), bytes(&both));
        assert_eq!(judged(&[&marked(&flags)], payload), none(true, 24));
        assert_eq!(judged(&[&marked(&both)], payload), five(true, 32));
    }
}

/// An extra with the field at 0, one with no bit and no extra: whatever stands
/// beside it, only the place of the payload differs, and all are written alike.
#[test]
fn three_bodies_have_one_meaning() {
    let actor = bytes(&[&ACTOR, &FIVE]);
    let extras = [bytes(&[&BIT, &ZERO]), NO_BIT.to_vec()];
    let with = |value: &[u8], fields: &[u8], extra: &[u8]| bytes(&[value, fields, extra]);
    let alone = extras.each_ref().map(|extra| with(&FLAGS, &[], extra));
    let mut groups = [vec![Vec::new()], vec![actor.clone()]];
    for (extra, alone) in extras.iter().zip(&alone) {
        groups[0].push(alone.clone());
        groups[1].push(bytes(&[&actor, alone]));
        groups[1].push(bytes(&[alone, &actor]));
        groups[1].push(with(&ACTOR_FLAGS, &FIVE, extra));
    }
    for (group, actor) in groups.iter().zip([None, Some(5)]) {
        for marker in [&[][..], &MARKER] {
            for payload in PAYLOADS {
                for headers in group {
                    let body = bytes(&[&ONE, headers, marker, payload]);
                    let read = read_invoke(&body).unwrap();
                    let place = 8 + headers.len() + marker.len();
                    let tl2 = !marker.is_empty();
                    assert_eq!(read, meaning(actor, tl2, place, payload.len()));
                    let Message::Invoke(invoke) = read else {
                        panic!("not an invoke");
                    };
                    assert_eq!(invoke.payload.of(&body), payload);
                    let again = super::body(&read.hold(|span| span.of(&body)));
                    let none = bytes(&[&ONE, &group[0], marker, payload]);
                    assert_eq!(again, Ok(none));
                }
            }
        }
    }
}

#[test]
fn every_other_field_is_a_timeout() {
    let bits = (0..32).map(|bit| 1_u32 << bit);
    for timeout in bits.chain([3, 255, 256, 0xffff, 65_536, u32::MAX]) {
        let field = timeout.to_le_bytes();
        for headers in [
            &[&FLAGS[..], &BIT, &field][..],
            &[&ACTOR_FLAGS, &FIVE, &BIT, &field],
        ] {
            let Ok(Message::Invoke(invoke)) = judged(headers, b"rest") else {
                panic!("not an invoke");
            };
            assert_eq!(invoke.timeout, Some(timeout));
        }
    }
}

/// At the value of the second header, whether its fields are there or not.
#[test]
fn a_field_of_zero_may_not_be_repeated() {
    let actor = bytes(&[&ACTOR, &FIVE]);
    let flags = bytes(&[&FLAGS, &BIT, &ZERO]);
    let both = bytes(&[&ACTOR_FLAGS, &FIVE, &BIT, &ZERO]);
    let extras: [&[u8]; 3] = [&NO_BIT, &bytes(&[&BIT, &ZERO]), &bytes(&[&BIT, &[7; 4]])];
    let repeated = Err(Refusal::HeaderRepeated);
    for first in [&flags, &both, &bytes(&[&actor, &flags])] {
        assert!(judged(&[first], b"").is_ok());
        for extra in extras {
            assert_eq!(judged(&[first, &FLAGS, extra], b"rest"), repeated);
            assert_eq!(
                judged(&[first, &ACTOR_FLAGS, &FIVE, extra], b"rest"),
                repeated
            );
        }
        assert_eq!(judged(&[first, &FLAGS], b""), repeated);
        assert_eq!(judged(&[first, &ACTOR_FLAGS], b""), repeated);
    }
    assert_eq!(judged(&[&both, &ACTOR], b""), repeated);
    assert_eq!(judged(&[&both, &actor], b"rest"), repeated);
    // An actor after an extra alone is a first one.
    assert!(judged(&[&flags, &actor], b"rest").is_ok());
    assert_eq!(judged(&[&flags, &actor, &actor], b""), repeated);
}

#[test]
fn the_mask_before_a_zero_is_judged() {
    let starts = [bytes(&[&FLAGS]), bytes(&[&ACTOR_FLAGS, &FIVE])];
    for bit in (0..32).filter(|bit| *bit != 23) {
        for mask in [1_u32 << bit, 1 << bit | 1 << 23] {
            for start in &starts {
                let headers = [&start[..], &mask.to_le_bytes()];
                // The mask is seen before a field that is there, cut or not there.
                for behind in [&ZERO[..], &[0; 3], &[], b"\0\0\0\0rest"] {
                    assert_eq!(judged(&headers, behind), Err(Refusal::NotCarried));
                }
            }
        }
    }
}

#[test]
fn a_zero_that_is_cut_off_is_11() {
    let starts = [
        bytes(&[&FLAGS, &BIT]),
        bytes(&[&ACTOR_FLAGS, &FIVE, &BIT]),
        bytes(&[&ACTOR, &FIVE, &FLAGS, &BIT]),
    ];
    for start in starts {
        for there in 0..4 {
            assert_eq!(judged(&[&start], &ZERO[..there]), Err(Refusal::CutOff));
        }
        assert!(judged(&[&start], &ZERO).is_ok());
    }
    // The extra's mask, which is a field of its own.
    for there in 0..4 {
        assert_eq!(judged(&[&FLAGS], &BIT[..there]), Err(Refusal::CutOff));
    }
}

#[test]
fn behind_the_marker_a_header_is_payload() {
    let headers = bytes(&[&FLAGS, &BIT, &ZERO]);
    let payload = bytes(&[&headers, &MARKER]);
    let read = judged(&[&headers, &MARKER], &payload);
    assert_eq!(read, Ok(meaning(None, true, 24, 16)));
}

#[test]
fn query_number_zero_comes_before_the_field() {
    let body = bytes(&[&[0; 8], &FLAGS, &BIT, &ZERO]);
    assert_eq!(read_invoke(&body), Err(Refusal::QueryNumberZero));
}
