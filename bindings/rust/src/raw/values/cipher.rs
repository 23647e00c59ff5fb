//! Settings.cipher and Settings.only, Link.ciphered, Outgoing.point, CipherKey,
//! RoundKeys, Vector, Chained.

use super::*;
use crate::packet_type::{HANDSHAKE, NONCE};

const TIME: u32 = 0x0403_0201;
/// Whether the link is a server's.
const SIDES: [bool; 2] = [false, true];
const KEY: [u8; 32] = *b"KeyIDabcdefghijklmnopqrstuvwxyz0";
const POINT: [u8; 32] = *b"QRSTUVWXYZ0123456789abcdefghijkl";
/// The settings of the cipher, as cipher and only; the last is the first too.
const SETTINGS: [(bool, bool); 4] = [(false, false), (true, true), (true, false), (false, true)];

fn with_key(server: bool, (cipher, only): (bool, bool)) -> Link {
    let set = Settings {
        cipher,
        only,
        ..settings(server, true)
    };
    let answer = set_up_with_key(set, &KEY);
    assert_eq!((answer.refusal, answer.link.set), (0, set));
    assert!(!answer.link.ciphered);
    answer.link
}

/// A link without a key that may cipher is refused, and before a version above 2.
#[test]
fn the_cipher_needs_a_key() {
    for server in SIDES {
        for (cipher, only) in SETTINGS {
            for lowest in [0, 3] {
                let set = Settings {
                    cipher,
                    only,
                    lowest,
                    ..settings(server, true)
                };
                let expected = match (cipher, lowest) {
                    (true, _) => 36,
                    (false, 3) => 30,
                    _ => 0,
                };
                let answer = set_up(set);
                assert_eq!(answer.refusal, expected);
                assert_eq!(answer.link.closed, expected != 0);
            }
        }
    }
}

/// The body of a Nonce with this encryption and KeyID.
fn offer(encryption: u8, key_id: &[u8]) -> Vec<u8> {
    let mut body = nonce(2, TIME);
    body[..4].copy_from_slice(key_id);
    body[4] = encryption;
    body
}

/// What a Nonce does to a link that awaits it: its refusal, and whether the
/// cipher is chosen.
fn taken(mut link: Link, body: &[u8]) -> (u8, bool) {
    link.stage = u8::from(!link.set.server);
    let arrival = receive(&mut link, &packet(FIRST_PACKET, NONCE, body), TIME);
    assert_eq!(link.closed, arrival.refusal != 0);
    (arrival.refusal, link.ciphered)
}

/// What the tables of document 02 say: whether the cipher, or none for a refusal.
fn chosen(server: bool, (cipher, only): (bool, bool), encryption: u8) -> Option<bool> {
    match (server, cipher, only, encryption) {
        (true, false, _, 1) => None,
        (true, false, ..) | (false, false, _, 0) => Some(false),
        (false, false, ..) => None,
        (_, true, true, 0) => None,
        (_, true, false, 0) => Some(false),
        (true, true, ..) => Some(true),
        (false, true, _, 1) => Some(true),
        (false, true, ..) => None,
    }
}

#[test]
fn receiving_reads_both_settings_and_writes_ciphered() {
    for server in SIDES {
        for setting in SETTINGS {
            for encryption in 0..=u8::MAX {
                let link = with_key(server, setting);
                let ours = taken(link, &offer(encryption, &KEY[..4]));
                let other = taken(link, &offer(encryption, b"kEYi"));
                let expected = match chosen(server, setting, encryption) {
                    Some(false) => [(0, false), (0, false)],
                    Some(true) => [(0, true), (9, false)],
                    None => [(9, false), (9, false)],
                };
                let what = format!("server {server}, {setting:?}, {encryption}");
                assert_eq!([ours, other], expected, "{what}");
            }
        }
    }
}

/// The body of the Nonce that a link sends.
fn sent(link: &mut Link) -> Vec<u8> {
    let outgoing = Outgoing {
        kind: NONCE,
        random: [7; 16],
        point: POINT,
        ..Outgoing::default()
    };
    let mut buf = [0xee; 100];
    let sent = send(link, &mut buf, b"", outgoing);
    assert_eq!((sent.refusal, sent.size), (0, 76));
    buf[12..72].to_vec()
}

fn expected_nonce(encryption: u8, key_id: &[u8], point: [u8; 32]) -> Vec<u8> {
    let front = [key_id, &[encryption, 2, 0, 0, 1, 2, 3, 4]].concat();
    [&front[..], &[7; 16], &point].concat()
}

#[test]
fn a_client_sends_its_offer_with_key_id_and_point() {
    for (setting, encryption) in SETTINGS.into_iter().zip([0, 1, 2, 0]) {
        let expected = match encryption {
            0 => expected_nonce(0, &[0; 4], [0; 32]),
            _ => expected_nonce(encryption, &KEY[..4], POINT),
        };
        assert_eq!(sent(&mut with_key(false, setting)), expected, "{setting:?}");
    }
}

#[test]
fn a_server_sends_what_was_chosen() {
    for setting in SETTINGS {
        for encryption in [0, 1, 2, 3, 255] {
            let mut link = with_key(true, setting);
            let bytes = packet(FIRST_PACKET, NONCE, &offer(encryption, &KEY[..4]));
            receive(&mut link, &bytes, TIME);
            let expected = match chosen(true, setting, encryption) {
                None => continue,
                Some(false) => expected_nonce(0, &[0; 4], [0; 32]),
                Some(true) => expected_nonce(1, &KEY[..4], POINT),
            };
            assert_eq!(sent(&mut link), expected, "{setting:?}, {encryption}");
        }
    }
}

/// A ciphered link is padded from the Handshakes on, whatever the setting says.
#[test]
fn sending_receiving_and_flushing_read_ciphered() {
    for (server, ciphered) in [(false, false), (false, true), (true, false), (true, true)] {
        let before = Link {
            ciphered,
            stage: 2 + u8::from(server),
            ..with_key(server, (true, false))
        };
        let mut link = before;
        let handshake = Outgoing {
            kind: HANDSHAKE,
            ..Outgoing::default()
        };
        assert_eq!(send(&mut link, &mut [0; 44], b"", handshake).size, 44);
        let words = if ciphered { 4 } else { 0 };
        assert_eq!(flush(&mut link, &mut [0; 12]).size, words);

        let mut link = Link { stage: 4, ..before };
        let bytes = [packet(link.gets, 5, b"x"), vec![0; 3]].concat();
        let consumed = if ciphered { 20 } else { 17 };
        assert_eq!(receive(&mut link, &bytes, TIME).consumed, consumed);
        assert_eq!(link.ciphered, ciphered);
    }
}

/// The key of FIPS 197, C.3.
fn standard_key() -> CipherKey {
    CipherKey {
        bytes: std::array::from_fn(|at| at as u8),
    }
}

/// FIPS 197, A.3: the key and the last four words of its expansion. The first
/// and the last round key of the inverse cipher are the same.
#[test]
fn round_keys_have_their_bytes_in_order() {
    let front = 0x603d_eb10_15ca_71be_2b73_aef0_857d_7781_u128;
    let back = 0x1f35_2c07_3b61_08d7_2d98_10a3_0914_dff4_u128;
    let last = 0xfe48_90d1_e618_8d0b_046d_f344_706c_631e_u128;
    let mut key = CipherKey { bytes: [0; 32] };
    key.bytes[..16].copy_from_slice(&front.to_be_bytes());
    key.bytes[16..].copy_from_slice(&back.to_be_bytes());
    let forth = unsafe { relay_encipher_keys(key) }.bytes;
    assert_eq!(forth[..32], key.bytes);
    assert_eq!(forth[224..], last.to_be_bytes());
    let back = unsafe { relay_decipher_keys(key) }.bytes;
    assert_eq!((&back[..16], &back[224..]), (&forth[..16], &forth[224..]));
    assert_ne!(back[16..224], forth[16..224]);
}

/// FIPS 197, C.3, from a vector that is not 0.
#[test]
fn a_block_and_its_vector() {
    let clear = 0x0011_2233_4455_6677_8899_aabb_ccdd_eeff_u128;
    let ciphered = 0x8ea2_b7ca_5167_45bf_eafc_4990_4b49_6089_u128.to_be_bytes();
    let mask = 0x0102_0304_0506_0708_090a_0b0c_0d0e_0f10_u128;
    let block = (clear ^ mask).to_be_bytes();
    let bytes = mask.to_be_bytes();
    let mut buf = [0xee; 20];
    buf[2..18].copy_from_slice(&block);
    let keys = unsafe { relay_encipher_keys(standard_key()) };
    let chained = unsafe { relay_encipher(buf[2..].as_mut_ptr(), 16, keys, Vector { bytes }) };
    assert_eq!((chained.refusal, chained.vector.bytes), (0, ciphered));
    assert_eq!(buf[2..18], ciphered);
    let keys = unsafe { relay_decipher_keys(standard_key()) };
    let chained = unsafe { relay_decipher(buf[2..].as_mut_ptr(), 16, keys, Vector { bytes }) };
    assert_eq!((chained.refusal, chained.vector.bytes), (0, ciphered));
    assert_eq!(buf[2..18], block);
    assert_eq!([&buf[..2], &buf[18..]], [[0xee; 2]; 2]);
}

#[test]
fn what_is_not_whole_blocks_stays_with_its_vector() {
    let key = standard_key();
    let (forth, back) = unsafe { (relay_encipher_keys(key), relay_decipher_keys(key)) };
    let bytes = *b"a vector of ours";
    for n in 0..100 {
        let mut buf = [0xee; 100];
        let vector = Vector { bytes };
        let one = unsafe { relay_encipher(buf.as_mut_ptr(), n, forth, vector) };
        let ciphered = buf;
        let other = unsafe { relay_decipher(buf.as_mut_ptr(), n, back, vector) };
        let refusal = if n % 16 == 0 { 0 } else { 37 };
        let is_same = n == 0 || refusal == 37;
        assert_eq!((one.refusal, other.refusal), (refusal, refusal), "{n}");
        assert_eq!(one.vector.bytes, other.vector.bytes);
        assert_eq!(one.vector.bytes == bytes, is_same);
        assert_eq!(ciphered == [0xee; 100], is_same);
        assert_eq!(buf, [0xee; 100]);
    }
}
