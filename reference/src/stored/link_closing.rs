//! Links closed by every refusal that closes one, and all calls on them.

use super::link_sending::Sending;
use super::link_talk::{receiving, Talk, OPEN, SIDES, TIME};
use crate::link::packet::{HANDSHAKE, NONCE, PING, PONG};
use crate::link::{handshake_body, nonce_body};
use crate::message::Side;

pub fn push(records: &mut Vec<u8>) {
    for side in SIDES {
        for talk in closed(side) {
            assert!(talk.is_closed());
            after(records, talk);
        }
    }
}

/// A whole packet, another beginning and nothing; then everything to send,
/// with room and without.
pub fn after(records: &mut Vec<u8>, mut talk: Talk) {
    talk.receive_forged(PING, &[0; 8]);
    talk.receive(&[1, 0, 0, 0]);
    talk.receive(&[]);
    for sending in Sending::every_kind(TIME) {
        talk.send_in(80, &sending);
    }
    talk.send_in(0, &Sending::ping(1));
    talk.store(records);
}

/// One conversation for each of 1 to 10, 17 and 21, as far as this side can
/// come to it.
fn closed(side: Side) -> Vec<Talk> {
    let [at_nonce, at_handshake, _] = receiving(side);
    let talk = |packets: usize| Talk::after(packets, side, (false, true));
    let with = |packets, packet_type, body: &[u8]| {
        let mut talk = talk(packets);
        talk.receive_forged(packet_type, body);
        talk
    };
    let lent = |packets, bytes: &[u8]| {
        let mut talk = talk(packets);
        talk.receive(bytes);
        talk
    };
    let mut encrypted = nonce_body(2, TIME, [0; 16]);
    encrypted[4] = 1;
    let mut wrong_sum = talk(OPEN).forged(PING, &[0; 8]);
    wrong_sum[23] ^= 1;
    let mut talks = vec![
        lent(OPEN, &[15, 0, 0, 0]),
        lent(OPEN, &[0, 0, 0, 1]),
        lent(at_handshake, &[0, 4, 0, 0]),
        lent(OPEN, &[16, 0, 0, 0, 9, 9, 9, 9, 0, 0, 0, 0]),
        with(OPEN, NONCE, &nonce_body(2, TIME, [0; 16])),
        lent(OPEN, &wrong_sum),
        with(at_nonce, NONCE, &[0; 27]),
        with(at_nonce, NONCE, &nonce_body(2, TIME - 31, [0; 16])),
        with(at_nonce, NONCE, &encrypted),
        with(OPEN, PONG, &[0; 9]),
        with(OPEN, PONG, &[0; 8]),
    ];
    if side == Side::Client {
        talks.push(with(at_nonce, NONCE, &nonce_body(3, TIME, [0; 16])));
        let flagged = handshake_body(true, [0; 12], [0; 12]);
        talks.push(with(at_handshake, HANDSHAKE, &flagged));
    }
    talks
}
