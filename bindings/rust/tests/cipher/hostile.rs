//! Bytes that no honest peer sends, and calls in any order: every call answers,
//! and nothing leaves a ciphered session that is not whole blocks.

use crate::pair::{self, all, Pair, HANDSHAKE};
use crate::{Random, CIPHERS, NOW, SIDES};
use relay::{Cipher, Fault, Message, Session, Side, ToSend};

#[test]
fn random_bytes_at_any_stage() {
    let mut random = Random(11);
    for n in 0..3000 {
        let (client, server) = (CIPHERS[random.below(3)], CIPHERS[random.below(3)]);
        let mut pair = Pair::new(client, server);
        let stage = random.below(5);
        if !reaches(&mut pair, stage) {
            continue;
        }
        let side = SIDES[n % 2];
        for _ in 0..random.below(6) {
            let size = random.below(100);
            let bytes = random.bytes(size);
            let session = pair.at(side);
            session.feed(&bytes);
            if let Ok(Some(packet)) = session.next(NOW) {
                panic!("{packet:?} out of random bytes");
            }
        }
    }
}

/// So many packets of the opening go over; false if one is refused.
fn reaches(pair: &mut Pair, stage: usize) -> bool {
    let opening = [
        (Side::Client, None),
        (Side::Server, None),
        (Side::Client, Some(HANDSHAKE)),
        (Side::Server, Some(HANDSHAKE)),
    ];
    opening.into_iter().take(stage).all(|(sender, what)| {
        let random = pair::random(sender);
        let what = what.unwrap_or(ToSend::Nonce { random });
        pair.pass_whole(sender, &[what]).is_ok()
    })
}

/// What a driver may do with a session.
fn act(random: &mut Random, session: &mut Session, wire: &mut Vec<u8>) -> Result<(), Fault> {
    let number = random.next() as i64;
    match random.below(9) {
        0 => session.send(ToSend::Nonce { random: [7; 16] }, NOW),
        1 => session.send(HANDSHAKE, NOW),
        2 => session.send(ToSend::Ping { id: 1 }, NOW),
        3 => session.send(ToSend::Pong, NOW),
        4 => session.send(ToSend::Message(Message::Cancel { number }), NOW),
        5 => session.send(ToSend::Message(Message::ServerFin), NOW),
        6 => {
            wire.extend(session.take_output());
            Ok(())
        }
        _ => session.next(NOW).map(drop),
    }
}

/// Two sessions whose drivers do anything at any time, and a wire that breaks a
/// byte now and then.
#[test]
fn calls_in_any_order() {
    let mut random = Random(13);
    let mut opened = [0; 2];
    for n in 0..2000 {
        let mut pair = Pair::new(Cipher::Either, [Cipher::Either, Cipher::ClearOnly][n % 2]);
        let is_honest = random.below(3) > 0;
        let mut wires = [vec![], vec![]];
        for _ in 0..200 {
            let at = random.below(2);
            let before = wires[at].len();
            let _ = act(&mut random, pair.at(SIDES[at]), &mut wires[at]);
            if !is_honest && wires[at].len() > before && random.below(4) == 0 {
                let place = before + random.below(wires[at].len() - before);
                wires[at][place] ^= 1 << random.below(8);
            }
            let size = random.below(wires[at].len() + 1);
            let part: Vec<u8> = wires[at].drain(..size).collect();
            pair.at(SIDES[1 - at]).feed(&part);
        }
        let is_open = pair.client.is_open() && pair.server.is_open();
        opened[n % 2] += usize::from(is_open);
        // No driver here sends what the other link may refuse.
        let is_closed = pair.client.is_closed() || pair.server.is_closed();
        assert!(!is_honest || !is_closed);
    }
    // Most of the honest ones, through the cipher and clear.
    assert!(opened[0] > 300 && opened[1] > 300, "{opened:?}");
}

/// Behind the Nonces all that leaves is whole blocks, whenever it is taken, and is
/// read at the other side.
#[test]
fn every_output_is_whole_blocks() {
    let mut random = Random(17);
    let mut heard = 0;
    for _ in 0..300 {
        let mut pair = Pair::new(Cipher::CipherOnly, Cipher::CipherOnly);
        pair.open(&mut |rest| rest).unwrap();
        for _ in 0..40 {
            let mut wire = vec![];
            let _ = act(&mut random, &mut pair.server, &mut wire);
            wire.extend(pair.server.take_output());
            assert_eq!(wire.len() % 16, 0);
            pair.client.feed(&wire);
            heard += all(&mut pair.client).unwrap().len();
        }
        assert!(!pair.client.is_closed());
        assert_eq!(pair.client.next(NOW), Ok(None));
    }
    assert!(heard > 300, "{heard}");
}
