//! Invokes with a timeout of 0 (document 02, A1) on links of every kind: what a
//! client sends for it, and that a server's receive does not look at it.

use super::link_ciphered::{set, KEY, POINT};
use super::link_padded::{self, ENOUGH};
use super::link_sending::Sending;
use super::link_talk::{Talk, OPEN};
use super::message_bodies::Body;
use super::records::{self, other, Draft};
use crate::link::{Cipher, Settings};
use crate::message::values as v;
use crate::message::Side;

pub fn push(records: &mut Vec<u8>) {
    for talk in open_links(Side::Client) {
        sends(records, talk);
    }
    for talk in open_links(Side::Server) {
        receives(records, talk);
    }
}

/// Clear, padded by hand and ciphered, each under both checksums.
fn open_links(side: Side) -> Vec<Talk> {
    let mut talks = Vec::new();
    for crc32c in [false, true] {
        let allowed = (crc32c, crc32c);
        talks.push(Talk::new(side, allowed));
        talks.push(link_padded::talk(side, allowed));
        talks.push(ciphered(side, crc32c));
    }
    for talk in &mut talks {
        talk.open_until(OPEN);
    }
    talks
}

fn ciphered(side: Side, crc32c_allowed: bool) -> Talk {
    let settings = |side| Settings {
        crc32c_allowed,
        ..set(side, Cipher::Either)
    };
    let theirs = settings(other(side));
    Talk::with_keys((settings(side), &KEY), (theirs, &KEY)).with_point(&POINT[..32])
}

/// No timeout, 0 and 1, each in a buffer one byte too short, in one just long
/// enough and in one that would have room for a field. Payloads of every size
/// modulo 4, so that padded links have zeros or none.
fn sends(records: &mut Vec<u8>, mut talk: Talk) {
    let plain = Draft::new(records::INVOKE, -8);
    let drafts = [plain, plain.actor(5)].map(|draft| [draft, draft.tl2(true)]);
    for (draft, n) in drafts.concat().into_iter().zip(4..) {
        let payload = &b"payload"[..n];
        let (none, one) = (draft, draft.timeout(1));
        for (draft, sized) in [(none, none), (draft.timeout(0), none), (one, one)] {
            let size = talk.size_of(&Sending::message(sized, payload));
            let size = size.expect("it can be sent");
            for room in [size - 1, size, size + 13] {
                talk.send_in(room, &Sending::message(draft, payload));
            }
        }
        talk.flush(ENOUGH);
    }
    refused(&mut talk);
    talk.store(records);
}

/// 12 and 15, with a timeout of 0, come before 16.
fn refused(talk: &mut Talk) {
    let header = v::DEST_FLAGS.to_le_bytes();
    for number in [0, 1] {
        let draft = Draft::new(records::INVOKE, number).timeout(0);
        talk.send_in(0, &Sending::message(draft, &header));
    }
}

/// Whatever is wrong with a field of 0 is for the reader of the message.
fn receives(records: &mut Vec<u8>, mut talk: Talk) {
    let start = Body::numbered(8);
    let zero = start.clone().flags(Some(0));
    let packet = talk.forged(v::INVOKE, &zero.0);
    talk.receive(&packet[..packet.len() - 5]);
    for body in [
        zero.clone(),
        start.clone().flags(None).bytes(b"p"),
        start.clone().bytes(b"pa"),
        start.clone().actor_flags(5, Some(0)).bytes(b"pay"),
        start.clone().actor(0).flags(Some(0)).marker().bytes(b"TL2"),
        start.flags(Some(0)).actor(-1).bytes(b"payload"),
        zero.clone().cut(1),
        zero.flags(Some(0)),
    ] {
        talk.receive_forged(v::INVOKE, &body.0);
    }
    talk.store(records);
}
