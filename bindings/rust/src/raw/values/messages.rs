//! Message.

use super::*;
use crate::packet_type::{INVOKE, RESULT};

fn read(server: bool, kind: u32, body: &[u8]) -> Message {
    unsafe { relay_read_message(server, kind, body.as_ptr(), body.len()) }
}

#[test]
fn every_field_of_an_invoke() {
    let mut body = 0x0102_0304_0506_0708_i64.to_le_bytes().to_vec();
    body.extend(0xf0a5_acf7_u32.to_le_bytes());
    body.extend((-5_i64).to_le_bytes());
    body.extend((1_u32 << 23).to_le_bytes());
    body.extend(300_u32.to_le_bytes());
    body.extend(0x2932_4c54_u32.to_le_bytes());
    body.extend(b"payload");
    let expected = Message {
        kind: 1,
        refusal: 0,
        hasactor: true,
        hastimeout: true,
        tl2: true,
        number: 0x0102_0304_0506_0708,
        actor: -5,
        timeout: 300,
        code: 0,
        at: 32,
        len: 7,
    };
    assert_eq!(read(true, INVOKE, &body), expected);
    assert_eq!(read(false, INVOKE, &body).refusal, 19);
}

#[test]
fn the_flags_of_an_invoke_one_at_a_time() {
    let flags = |header: &[u8]| {
        let body = [&[1, 0, 0, 0, 0, 0, 0, 0], header].concat();
        let message = read(true, INVOKE, &body);
        (message.hasactor, message.hastimeout, message.tl2)
    };
    let actor = [0xbd, 0xaa, 0x68, 0x75, 5, 0, 0, 0, 0, 0, 0, 0];
    let timeout = [0x5e, 0x03, 0x52, 0xe3, 0, 0, 0x80, 0, 5, 0, 0, 0];
    assert_eq!(flags(&[]), (false, false, false));
    assert_eq!(flags(&actor), (true, false, false));
    assert_eq!(flags(&timeout), (false, true, false));
    assert_eq!(flags(&[0x54, 0x4c, 0x32, 0x29]), (false, false, true));
}

/// The flag says no more than the number.
#[test]
fn a_timeout_of_0_is_none() {
    let timeout = |header: u32, actor: &[u8], field: u32| {
        let mask_and_field = [1 << 23, field].map(u32::to_le_bytes).concat();
        let header = header.to_le_bytes();
        let body = [
            &[1, 0, 0, 0, 0, 0, 0, 0],
            &header[..],
            actor,
            &mask_and_field,
        ]
        .concat();
        let message = read(true, INVOKE, &body);
        assert_eq!((message.kind, message.at), (1, body.len()));
        (message.hastimeout, message.timeout)
    };
    for field in [0, 1, 255, 256, 1 << 16, 1 << 31, u32::MAX] {
        let expected = (field != 0, field);
        assert_eq!(timeout(0xe352_035e, &[], field), expected);
        assert_eq!(timeout(0xf0a5_acf7, &[5; 8], field), expected);
    }
}

#[test]
fn every_field_of_an_error_and_of_a_refusal() {
    let mut body = (-1_i64).to_le_bytes().to_vec();
    body.extend(0xb527_877d_u32.to_le_bytes());
    body.extend((-3000_i32).to_le_bytes());
    body.extend(b"\x03bad");
    let none = Message {
        kind: 0,
        refusal: 0,
        hasactor: false,
        hastimeout: false,
        tl2: false,
        number: 0,
        actor: 0,
        timeout: 0,
        code: 0,
        at: 0,
        len: 0,
    };
    let error = Message {
        kind: 5,
        number: -1,
        code: -3000,
        at: 17,
        len: 3,
        ..none
    };
    assert_eq!(read(false, RESULT, &body), error);
    body[17 + 2] = 0;
    body.push(0);
    let refused = Message {
        refusal: 17,
        ..none
    };
    assert_eq!(read(false, RESULT, &body), refused);
}
