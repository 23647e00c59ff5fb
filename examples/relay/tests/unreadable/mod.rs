//! Messages that are refused by their reader after the query number, one for
//! each way in which that can happen.

use reference::message::values::{
    DEST_ACTOR, DEST_ACTOR_FLAGS, DEST_FLAGS, DIAGONAL, DIAGONAL_TARGETS, ERROR, ERROR_NUMBERED,
    ERROR_WRAPPED, INVOKE, OLD_ERROR, RESULT, RESULT_HEADER, TIMEOUT_BIT,
};

#[derive(Clone, Copy)]
pub struct Unreadable {
    pub packet_type: u32,
    /// The number of the refusal.
    pub refusal: i32,
    words: &'static [u32],
    /// What follows the words.
    rest: &'static [u8],
}

impl Unreadable {
    pub fn body(&self, number: i64) -> Vec<u8> {
        let mut body = number.to_le_bytes().to_vec();
        body.extend(self.words.iter().flat_map(|word| word.to_le_bytes()));
        body.extend(self.rest);
        body
    }
}

const fn of(
    packet_type: u32,
    refusal: i32,
    words: &'static [u32],
    rest: &'static [u8],
) -> Unreadable {
    Unreadable {
        packet_type,
        refusal,
        words,
        rest,
    }
}

/// Of a publisher. An error's code is 7, and its text is whole as `\x03why`.
pub const ANSWERS: [Unreadable; 18] = [
    of(RESULT, 11, &[RESULT_HEADER], b""),
    of(RESULT, 11, &[RESULT_HEADER], b"\0\0\0"),
    of(RESULT, 11, &[ERROR], b"\x07\0"),
    of(RESULT, 11, &[ERROR, 7], b"\x03wh"),
    of(RESULT, 11, &[RESULT_HEADER, 0, ERROR_WRAPPED, 7], b"\x05wh"),
    of(RESULT, 11, &[ERROR_NUMBERED, 1], b"\0\0\0"),
    of(RESULT, 13, &[RESULT_HEADER, 0, RESULT_HEADER, 0], b"a page"),
    of(RESULT, 14, &[RESULT_HEADER, 1], b"a page"),
    of(RESULT, 14, &[RESULT_HEADER, 1 << 31], b""),
    of(RESULT, 17, &[ERROR, 7], b"\x03whymore"),
    of(RESULT, 17, &[ERROR_NUMBERED, 1, 2, 7], b"\x03why\0"),
    of(RESULT, 18, &[ERROR, 7], b"\xff\0\0\0"),
    of(RESULT, 18, &[ERROR_WRAPPED, 7], b"\x02why"),
    of(OLD_ERROR, 11, &[], b""),
    of(OLD_ERROR, 11, &[7], b"\x03wh"),
    of(OLD_ERROR, 17, &[7], b"\x03why\0"),
    of(OLD_ERROR, 18, &[7], b"\xfe\x03\0\0why\0"),
    of(OLD_ERROR, 18, &[7], b"\x02why"),
];

/// Of a front end.
pub const REQUESTS: [Unreadable; 11] = [
    of(INVOKE, 11, &[DEST_ACTOR, 5], b"\0\0\0"),
    of(INVOKE, 11, &[DEST_FLAGS], b""),
    of(INVOKE, 11, &[DEST_ACTOR_FLAGS, 5, 0, TIMEOUT_BIT], b"\x01"),
    of(INVOKE, 11, &[DEST_FLAGS, TIMEOUT_BIT], b"\0\0\0"),
    of(
        INVOKE,
        13,
        &[DEST_ACTOR, 5, 0, DEST_ACTOR, 5, 0],
        b"question",
    ),
    of(INVOKE, 13, &[DEST_FLAGS, 0, DEST_FLAGS, 0], b""),
    of(INVOKE, 13, &[DEST_FLAGS, TIMEOUT_BIT, 0, DEST_FLAGS], b""),
    of(INVOKE, 13, &[DEST_ACTOR, 5, 0, DEST_ACTOR_FLAGS], b""),
    of(INVOKE, 14, &[DIAGONAL], b"question"),
    of(INVOKE, 14, &[DEST_ACTOR, 5, 0, DIAGONAL_TARGETS], b""),
    of(INVOKE, 14, &[DEST_FLAGS, 1], b"question"),
];
