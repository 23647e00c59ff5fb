mod reading_zero;
mod writing_zero;

use super::values as v;
use super::*;
use crate::generator::Generator;
use crate::refusal::Refusal;

fn bytes(parts: &[&[u8]]) -> Vec<u8> {
    parts.concat()
}

fn read_invoke(body: &[u8]) -> Result<Message<Span>, Refusal> {
    read(Side::Server, v::INVOKE, body)
}

fn read_result(body: &[u8]) -> Result<Message<Span>, Refusal> {
    read(Side::Client, v::RESULT, body)
}

const ONE: [u8; 8] = [1, 0, 0, 0, 0, 0, 0, 0];
const ACTOR: [u8; 4] = [0xbd, 0xaa, 0x68, 0x75];
const FIVE: [u8; 8] = [5, 0, 0, 0, 0, 0, 0, 0];
/// The text of document 01's example, with four bytes.
const TEXT: [u8; 8] = [0x04, 0xed, 0x48, 0x79, 0xa9, 0, 0, 0];

#[test]
fn the_invoke_of_document_01() {
    let body = bytes(&[&ONE, &ACTOR, &FIVE]);
    let expected = Message::Invoke(Invoke {
        number: 1,
        actor: Some(5),
        timeout: None,
        tl2: false,
        payload: Span { at: 20, len: 0 },
    });
    assert_eq!(read_invoke(&body), Ok(expected));
    let twice = bytes(&[&body, &ACTOR]);
    assert_eq!(read_invoke(&twice), Err(Refusal::HeaderRepeated));
}

#[test]
fn the_text_of_document_01() {
    let code = (-3000_i32).to_le_bytes();
    let text = |at| Message::Result(1, Outcome::Error(-3000, Span { at, len: 4 }));
    let inside = |value: u32, between: &[u8]| {
        read_result(&bytes(&[&ONE, &value.to_le_bytes(), between, &code, &TEXT]))
    };
    assert_eq!(inside(v::ERROR, &[]), Ok(text(17)));
    assert_eq!(inside(v::ERROR_WRAPPED, &[]), Ok(text(17)));
    assert_eq!(inside(v::ERROR_NUMBERED, &[0; 8]), Ok(text(25)));
    let old = bytes(&[&ONE, &code, &TEXT]);
    assert_eq!(read(Side::Client, v::OLD_ERROR, &old), Ok(text(13)));
}

#[test]
fn an_empty_extra_counts_as_one() {
    let empty = bytes(&[&v::DEST_FLAGS.to_le_bytes(), &[0; 4]]);
    let once = bytes(&[&ONE, &empty, b"rest"]);
    let Ok(Message::Invoke(invoke)) = read_invoke(&once) else {
        panic!("not an invoke");
    };
    assert_eq!((invoke.timeout, invoke.payload.len), (None, 4));
    let twice = bytes(&[&ONE, &empty, &empty]);
    assert_eq!(read_invoke(&twice), Err(Refusal::HeaderRepeated));
}

#[test]
fn nothing_is_a_header_after_the_marker() {
    let marker = v::TL2_MARKER.to_le_bytes();
    let body = bytes(&[&ONE, &marker, &marker, &ACTOR]);
    let Ok(Message::Invoke(invoke)) = read_invoke(&body) else {
        panic!("not an invoke");
    };
    assert!(invoke.tl2);
    assert_eq!(invoke.payload, Span { at: 12, len: 8 });
}

#[test]
fn texts_are_judged_in_order() {
    let judged = |text: &[u8]| read(Side::Client, v::OLD_ERROR, &bytes(&[&ONE, &[0; 4], text]));
    assert_eq!(judged(&[]), Err(Refusal::CutOff));
    assert_eq!(judged(&[255]), Err(Refusal::TextForm));
    assert_eq!(judged(&[254, 0, 0]), Err(Refusal::CutOff));
    assert_eq!(judged(&[254, 253, 0, 0]), Err(Refusal::TextForm));
    assert_eq!(judged(&[254, 254, 0, 0]), Err(Refusal::CutOff));
    assert_eq!(judged(&[1, 7, 9]), Err(Refusal::CutOff));
    assert_eq!(judged(&[1, 7, 9, 0, 0]), Err(Refusal::TextForm));
    assert_eq!(judged(&[1, 7, 0, 0, 0]), Err(Refusal::WrongSize));
    assert!(judged(&[0, 0, 0, 0]).is_ok());
    assert!(judged(&[3, 7, 7, 7]).is_ok());
}

#[test]
fn a_cancel_is_17_then_12_then_17() {
    let judged = |body: &[u8]| read(Side::Server, v::CANCEL, body);
    assert_eq!(judged(&[0; 7]), Err(Refusal::WrongSize));
    assert_eq!(judged(&[0; 8]), Err(Refusal::QueryNumberZero));
    assert_eq!(judged(&[0; 9]), Err(Refusal::QueryNumberZero));
    assert_eq!(judged(&[1; 9]), Err(Refusal::WrongSize));
    assert!(judged(&[1; 8]).is_ok());
}

#[test]
fn a_packet_too_long_is_2_before_16() {
    let payload = vec![0; 16_777_215 - 16 - 8 + 1];
    let invoke = |payload| {
        Message::Invoke(Invoke {
            number: 1,
            actor: None,
            timeout: None,
            tl2: false,
            payload,
        })
    };
    let result = |payload| Message::Result(1, Outcome::Payload(payload));
    let (exact, over) = (&payload[1..], &payload[..]);
    for (exact, over) in [(invoke(exact), invoke(over)), (result(exact), result(over))] {
        assert_eq!(write(&over, &mut []), Err(Refusal::LengthTooLong));
        assert_eq!(write(&exact, &mut []), Err(Refusal::BufferTooSmall));
        assert_eq!(body(&exact).unwrap().len() + 16, 16_777_215);
    }
    // A text's whole is a multiple of 4, so one byte more is four bytes more.
    let text = |len| Message::Result(1, Outcome::Error(0, &payload[..len]));
    assert_eq!(
        write(&text(16_777_177), &mut []),
        Err(Refusal::LengthTooLong)
    );
    assert_eq!(
        write(&text(16_777_176), &mut []),
        Err(Refusal::BufferTooSmall)
    );
}

fn draw_message<'a>(generator: &mut Generator, payload: &'a [u8]) -> Message<&'a [u8]> {
    let number = generator.draw() as i64 | 1;
    match generator.below(8) {
        0 => Message::Cancel(number),
        1 => Message::ClientFin,
        2 => Message::ServerFin,
        3 => Message::Result(number, Outcome::Payload(payload)),
        4 => Message::Result(number, Outcome::Error(generator.draw() as i32, payload)),
        _ => Message::Invoke(Invoke {
            number,
            actor: (generator.below(2) == 0).then(|| generator.draw() as i64),
            timeout: draw_timeout(generator),
            tl2: generator.below(2) == 0,
            payload,
        }),
    }
}

fn draw_timeout(generator: &mut Generator) -> Option<u32> {
    match generator.below(4) {
        0 | 1 => None,
        2 => Some(0),
        _ => Some(generator.draw() as u32 | 1),
    }
}

/// What a message that is to be written means: of a timeout, 0 is none.
fn meant<P>(message: Message<P>) -> Message<P> {
    match message {
        Message::Invoke(invoke) if invoke.timeout == Some(0) => Message::Invoke(Invoke {
            timeout: None,
            ..invoke
        }),
        _ => message,
    }
}

#[test]
fn what_is_written_reads_back() {
    let mut generator = Generator::new(0x3E55);
    for turn in 0..6000_u64 {
        let longest = if turn.is_multiple_of(10) { 600 } else { 12 };
        let n = generator.below(longest) as usize;
        let payload = generator.bytes(n);
        let message = draw_message(&mut generator, &payload);
        let mut buffer = [0xa5; 700];
        let size = write(&message, &mut buffer).unwrap();
        assert!(buffer[size..].iter().all(|&byte| byte == 0xa5));
        let reader = match message.sender() {
            Side::Client => Side::Server,
            Side::Server => Side::Client,
        };
        let body = &buffer[..size];
        let meaning = read(reader, message.packet_type(), body).unwrap();
        assert_eq!(meaning.hold(|span| span.of(body)), meant(message));
    }
}

#[test]
fn what_reads_can_be_written_again() {
    // Headers in any order are one meaning, and the writer's form has it too.
    let extra = bytes(&[
        &v::DEST_FLAGS.to_le_bytes(),
        &v::TIMEOUT_BIT.to_le_bytes(),
        &[9; 4],
    ]);
    let actor = bytes(&[&ACTOR, &FIVE]);
    let one = bytes(&[&ONE, &extra, &actor, b"payload"]);
    let other = bytes(&[&ONE, &actor, &extra, b"payload"]);
    let written = |body: &[u8]| {
        let meaning = read_invoke(body).unwrap();
        super::body(&meaning.hold(|span| span.of(body))).unwrap()
    };
    assert_eq!(written(&one), written(&other));
    let combined = bytes(&[
        &ONE,
        &v::DEST_ACTOR_FLAGS.to_le_bytes(),
        &FIVE,
        &extra[4..],
        b"payload",
    ]);
    assert_eq!(written(&one), combined);
}
