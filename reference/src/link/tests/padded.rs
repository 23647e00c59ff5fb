//! Padded links that receive: words, zeros, and what is judged when.

use super::*;

/// A type that a link passes whatever its body.
const ANY: u32 = values::INVOKE;
const WORD: [u8; 4] = [4, 0, 0, 0];
const SIDES: [Side; 2] = [Side::Client, Side::Server];

pub fn padded(side: Side) -> Settings {
    Settings {
        padded: true,
        ..Settings::new(side, true)
    }
}

pub fn padded_pair() -> Pair {
    Pair {
        client: Link::set_up(padded(Side::Client)).unwrap(),
        server: Link::set_up(padded(Side::Server)).unwrap(),
    }
}

impl Pair {
    pub fn of(self, side: Side) -> Link {
        match side {
            Side::Client => self.client,
            Side::Server => self.server,
        }
    }
}

fn open(side: Side) -> Link {
    padded_pair().open().of(side)
}

/// A link that waits for the other's Handshake.
fn awaiting_handshake(side: Side) -> Link {
    let mut pair = padded_pair();
    pair.pass(Side::Client, NONCE_OUT);
    pair.pass(Side::Server, NONCE_OUT);
    if side == Side::Client {
        pair.pass(Side::Client, HANDSHAKE_OUT);
    }
    pair.of(side)
}

/// What `link` expects next, with words before it and zeros behind it.
fn forged(link: &Link, words: usize, packet_type: u32, body: &[u8]) -> Vec<u8> {
    let (number, checksum) = link.expected();
    let mut packet = packet::whole(number, packet_type, body, checksum);
    packet.resize(packet.len().next_multiple_of(4), 0);
    [WORD.repeat(words), packet].concat()
}

/// The number of the refusal, or 0; only what is refused closes the link, and
/// nothing else of it changes then.
fn judged(mut link: Link, bytes: &[u8]) -> u8 {
    let before = link.state();
    let number = link.receive(bytes, TIME).err().map_or(0, Refusal::number);
    assert_eq!(link.is_closed(), number != 0);
    if number != 0 {
        let closed = State {
            closed: true,
            ..before
        };
        assert_eq!(link.state(), closed);
        assert_eq!(link.receive(bytes, TIME), Err(Refusal::LinkClosed));
    }
    number
}

#[test]
fn waits_and_used_count_words_and_zeros() {
    for side in SIDES {
        for words in 0..=3 {
            for size in 0..=9 {
                let mut link = open(side);
                let bytes = forged(&link, words, ANY, &vec![5; size]);
                let (front, end) = (4 * words, bytes.len());
                assert_eq!(end, front + (16 + size).next_multiple_of(4));
                for n in 0..end {
                    let awaited = (4..=front + 4).step_by(4).find(|at| n < *at);
                    let awaited = awaited.unwrap_or(if n < front + 12 { front + 12 } else { end });
                    let received = link.receive(&bytes[..n], TIME);
                    assert_eq!(received, Ok(Received::Wait(awaited - n)), "{n} of {end}");
                }
                let expected = Received::Packet {
                    packet_type: ANY,
                    consumed: end,
                    body: Span {
                        at: front + 12,
                        len: size,
                    },
                    clock: None,
                };
                let behind = [&bytes[..], &[9; 3]].concat();
                assert_eq!(link.clone().receive(&behind, TIME), Ok(expected));
                assert_eq!(link.receive(&bytes, TIME), Ok(expected));
            }
        }
    }
}

#[test]
fn a_fourth_word_is_26_whatever_comes_behind() {
    for side in SIDES {
        for (words, number) in [(3, 0), (4, 26), (5, 26)] {
            let bytes = forged(&open(side), words, ANY, b"x");
            assert_eq!(judged(open(side), &bytes), number);
        }
        let four = WORD.repeat(4);
        let waits = open(side).receive(&four[..15], TIME);
        assert_eq!(waits, Ok(Received::Wait(1)));
        assert_eq!(judged(open(side), &four), 26);
        assert_eq!(
            judged(open(side), &[&four[..], &[15, 0, 0, 0]].concat()),
            26
        );
    }
}

#[test]
fn other_short_lengths_are_1_behind_up_to_three_words() {
    for side in SIDES {
        for words in 0..=3 {
            for length in (0..16_u32).filter(|length| *length != 4) {
                let bytes = [WORD.repeat(words), length.to_le_bytes().to_vec()].concat();
                assert_eq!(judged(open(side), &bytes), 1);
            }
            let high = [&WORD.repeat(words)[..], &[4, 0, 0, 1]].concat();
            assert_eq!(judged(open(side), &high), 2);
            let sixteen = [&WORD.repeat(words)[..], &[16, 0, 0, 0]].concat();
            assert_eq!(judged(open(side), &sixteen), 0);
        }
    }
}

#[test]
fn a_word_in_the_opening_or_unpadded_is_1() {
    for words in 1..=5 {
        let bytes = WORD.repeat(words);
        assert_eq!(
            judged(Link::set_up(padded(Side::Server)).unwrap(), &bytes),
            1
        );
        let mut client = Link::set_up(padded(Side::Client)).unwrap();
        sent(&mut client, NONCE_OUT);
        assert_eq!(judged(client, &bytes), 1);
        for side in SIDES {
            assert_eq!(judged(awaiting_handshake(side), &bytes), 1);
            assert_eq!(judged(Pair::new(true, true).open().of(side), &bytes), 1);
        }
    }
}

#[test]
fn a_nonce_has_no_zeros_and_a_handshake_has() {
    for size in 60..=64 {
        let mut server = Link::set_up(padded(Side::Server)).unwrap();
        let mut body = nonce_body(2, TIME, [0; 16]);
        body.resize(size, 7);
        let nonce = packet::whole(packet::FIRST_NUMBER, NONCE, &body, CRC32);
        let taken = server.receive(&nonce, TIME).unwrap();
        assert!(matches!(taken, Received::Packet { consumed, .. } if consumed == 16 + size));
    }
    for side in SIDES {
        for size in 28..=32 {
            let link = awaiting_handshake(side);
            let body = vec![0; size];
            let packet = forged(&link, 0, HANDSHAKE, &body);
            for n in 16 + size..packet.len() {
                let waits = link.clone().receive(&packet[..n], TIME);
                assert_eq!(waits, Ok(Received::Wait(packet.len() - n)));
            }
            assert_eq!(judged(link, &packet), 0);
        }
    }
}

#[test]
fn lengths_of_the_opening_do_not_count_zeros() {
    for side in SIDES {
        for (length, number) in [(1021, 0), (1022, 0), (1023, 0), (1024, 3)] {
            let link = awaiting_handshake(side);
            let packet = forged(&link, 0, HANDSHAKE, &vec![0; length - 16]);
            assert_eq!(packet.len(), 1024);
            assert_eq!(judged(link, &packet), number);
        }
    }
}

/// Each with all that comes behind it in the order wrong as well.
#[test]
fn padding_is_25_after_6_and_before_what_the_body_says() {
    for side in SIDES {
        for (packet_type, size) in [(ANY, 5), (ANY, 6), (ANY, 7), (PING, 9), (PONG, 7)] {
            let link = open(side);
            let sound = forged(&link, 2, packet_type, &vec![1; size]);
            for place in 8 + 16 + size..sound.len() {
                for wrong in [1, 0x80, 255] {
                    let mut bytes = sound.clone();
                    bytes[place] = wrong;
                    assert_eq!(judged(open(side), &bytes), 25);
                    bytes[8 + 15] ^= 1;
                    assert_eq!(judged(open(side), &bytes), 6);
                    bytes[8 + 8..8 + 12].copy_from_slice(&NONCE.to_le_bytes());
                    assert_eq!(judged(open(side), &bytes), 5);
                }
            }
        }
        for (size, number) in [(27, 7), (25, 7), (29, 0)] {
            let mut bytes = forged(&awaiting_handshake(side), 0, HANDSHAKE, &vec![0; size]);
            assert_eq!(judged(awaiting_handshake(side), &bytes), number);
            *bytes.last_mut().unwrap() = 1;
            assert_eq!(judged(awaiting_handshake(side), &bytes), 25);
        }
    }
}

#[test]
fn checksum_and_zeros_are_judged_together() {
    for side in SIDES {
        let mut link = open(side);
        let mut bytes = forged(&link, 1, ANY, b"12345");
        bytes[4 + 20] ^= 1;
        bytes[4 + 21] = 1;
        for n in 4 + 21..bytes.len() {
            let waits = link.receive(&bytes[..n], TIME);
            assert_eq!(waits, Ok(Received::Wait(bytes.len() - n)));
        }
        assert_eq!(judged(link, &bytes), 6);
    }
}

#[test]
fn a_pong_behind_words_is_still_out_of_turn() {
    for side in SIDES {
        let bytes = forged(&open(side), 3, PONG, &[0; 8]);
        assert_eq!(judged(open(side), &bytes), 21);
    }
}

#[test]
fn the_longest_packet_waits_for_its_zero() {
    for side in SIDES {
        for words in 0..=3 {
            let mut link = open(side);
            let mut front = forged(&link, words, ANY, &[])[..4 * words + 12].to_vec();
            front[4 * words..4 * words + 3].fill(255);
            let waits = link.receive(&front, TIME);
            assert_eq!(waits, Ok(Received::Wait(16_777_216 - 12)));
        }
    }
}
