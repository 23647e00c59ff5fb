//! Invokes whose timeout is given as 0, as they are written.

use super::*;

const ACTORS: [Option<i64>; 4] = [None, Some(0), Some(5), Some(i64::MIN)];
const PAYLOADS: [&[u8]; 4] = [b"", b"p", b"rest", b"a payload"];

/// Every actor, with the marker and without it, and every payload.
fn shapes() -> Vec<Invoke<&'static [u8]>> {
    let mut shapes = Vec::new();
    for actor in ACTORS {
        for tl2 in [false, true] {
            shapes.extend(PAYLOADS.map(|payload| Invoke {
                number: -2,
                actor,
                timeout: None,
                tl2,
                payload,
            }));
        }
    }
    shapes
}

fn timed<'a>(invoke: Invoke<&'a [u8]>, timeout: u32) -> Message<&'a [u8]> {
    Message::Invoke(Invoke {
        timeout: Some(timeout),
        ..invoke
    })
}

fn numbered<'a>(number: i64, tl2: bool, payload: &'a [u8]) -> Message<&'a [u8]> {
    Message::Invoke(Invoke {
        number,
        actor: None,
        timeout: Some(0),
        tl2,
        payload,
    })
}

#[test]
fn no_field_and_no_header_for_it() {
    let five = |tl2| Invoke {
        number: 1,
        actor: Some(5),
        timeout: None,
        tl2,
        payload: &b"rest"[..],
    };
    let marker = [0x54, 0x4c, 0x32, 0x29];
    let written = |message| body(&message).unwrap();
    let expected = bytes(&[&ONE, b"rest"]);
    assert_eq!(written(numbered(1, false, b"rest")), expected);
    let expected = bytes(&[&ONE, &marker, b"rest"]);
    assert_eq!(written(numbered(1, true, b"rest")), expected);
    let expected = bytes(&[&ONE, &ACTOR, &FIVE, b"rest"]);
    assert_eq!(written(timed(five(false), 0)), expected);
    let expected = bytes(&[&ONE, &ACTOR, &FIVE, &marker, b"rest"]);
    assert_eq!(written(timed(five(true), 0)), expected);
}

#[test]
fn the_same_bytes_as_for_none() {
    for invoke in shapes() {
        let none = body(&Message::Invoke(invoke)).unwrap();
        assert_eq!(body(&timed(invoke, 0)).unwrap(), none);
        // The actor's header gives way to the combined one, which has its
        // size; mask and field are more. An extra alone has its own value.
        let more = if invoke.actor.is_some() { 8 } else { 12 };
        for timeout in [1, 256, 1 << 23, 1 << 31] {
            assert_eq!(
                body(&timed(invoke, timeout)).unwrap().len(),
                none.len() + more
            );
        }
    }
}

#[test]
fn the_room_is_that_of_none() {
    for invoke in shapes() {
        let actor = if invoke.actor.is_some() { 12 } else { 0 };
        let marker = if invoke.tl2 { 4 } else { 0 };
        let size = 8 + actor + marker + invoke.payload.len();
        let zero = timed(invoke, 0);
        let none = body(&Message::Invoke(invoke)).unwrap();
        for room in [size, size + 1, size + 12, size + 40] {
            let mut buffer = vec![0xa5; room];
            assert_eq!(write(&zero, &mut buffer), Ok(size));
            assert_eq!(buffer[..size], none);
            assert!(buffer[size..].iter().all(|byte| *byte == 0xa5));
        }
        for room in [size - 1, 0] {
            let mut buffer = vec![0xa5; room];
            assert_eq!(write(&zero, &mut buffer), Err(Refusal::BufferTooSmall));
            assert!(buffer.iter().all(|byte| *byte == 0xa5));
        }
    }
}

#[test]
fn twelve_then_fifteen_then_sixteen() {
    for value in v::REQUEST_HEADERS {
        let payload = bytes(&[&value.to_le_bytes(), b"more"]);
        let in_none = |message| write(&message, &mut []);
        let zero = Err(Refusal::QueryNumberZero);
        assert_eq!(in_none(numbered(0, false, &payload)), zero);
        assert_eq!(in_none(numbered(0, true, b"")), zero);
        let header = Err(Refusal::PayloadAsHeader);
        assert_eq!(in_none(numbered(1, false, &payload)), header);
        assert_eq!(in_none(numbered(1, false, &payload[..4])), header);
        let small = Err(Refusal::BufferTooSmall);
        assert_eq!(in_none(numbered(1, false, &payload[..3])), small);
        assert_eq!(in_none(numbered(1, true, &payload)), small);
    }
}

/// The longest payload is that of no timeout: with a field it would not fit.
#[test]
fn two_counts_no_field() {
    let payload = vec![0; 16_777_215 - 16 - 8 + 1];
    for (actor, headers) in [(None, 0), (Some(5), 12)] {
        for (tl2, marker) in [(false, 0), (true, 4)] {
            let most = payload.len() - 1 - headers - marker;
            let refused = |timeout, len| {
                let invoke = Message::Invoke(Invoke {
                    number: 1,
                    actor,
                    timeout,
                    tl2,
                    payload: &payload[..len],
                });
                write(&invoke, &mut []).unwrap_err()
            };
            for timeout in [None, Some(0)] {
                assert_eq!(refused(timeout, most), Refusal::BufferTooSmall);
                assert_eq!(refused(timeout, most + 1), Refusal::LengthTooLong);
            }
            assert_eq!(refused(Some(1), most), Refusal::LengthTooLong);
        }
    }
}
