use super::*;
use crate::link::{nonce_body, packet};

fn text() -> String {
    String::from_utf8(output(&input())).unwrap()
}

#[test]
fn every_refusal_and_answer_occurs() {
    let text = text();
    let count = |part: &str| {
        let words = |line: &&str| format!("{line} ").starts_with(part);
        text.lines().filter(words).count()
    };
    let by_receive = (1..=10).chain([17, 20, 21, 22]);
    for refusal in by_receive.chain([12, 15, 16, 19, 24, 25, 26, 30, 36]) {
        let part = format!("no {refusal} ");
        assert!(count(&part) >= 20, "{part}: {}", count(&part));
    }
    for part in [
        "link ", "wait ", "packet ", "sent ", "flush ", "cipher ", "clear ",
    ] {
        assert!(count(part) >= 500, "{part}: {}", count(part));
    }
}

/// What was stored before links had lowest versions: size and CRC-32 of
/// input and output.
const BASE_INPUT: (usize, u32) = (1_603_482, 0x6E4E_8C57);
const BASE_OUTPUT: (usize, u32) = (483_550, 0xF642_C1D6);

/// And before links were padded.
const VERSIONS_INPUT: (usize, u32) = (1_853_919, 0x26ED_BBE4);
const VERSIONS_OUTPUT: (usize, u32) = (570_585, 0x72C9_63E4);
const VERSIONS_LINES: usize = 31_986;

/// And before they were ciphered.
const PADDED_INPUT: (usize, u32) = (3_898_229, 0xDF50_539C);
const PADDED_OUTPUT: (usize, u32) = (1_341_348, 0x457D_1A5C);
const PADDED_LINES: usize = 72_486;

/// And before a timeout of 0 was none.
const CIPHERED_INPUT: (usize, u32) = (5_818_610, 0x708D_D3A0);
const CIPHERED_OUTPUT: (usize, u32) = (1_968_573, 0xA1BB_55DE);
const CIPHERED_LINES: usize = 112_162;

#[test]
fn the_base_stays_in_front() {
    let input = input();
    for (bytes, (size, sum)) in [(&input, BASE_INPUT), (&output(&input), BASE_OUTPUT)] {
        assert_eq!(CRC32.of(&bytes[..size]), sum);
    }
    assert_eq!(input[BASE_INPUT.0], SET_UP);
}

#[test]
fn lowest_versions_stay_behind_the_base() {
    let (input, output) = (input(), output(&input()));
    for (bytes, (size, sum)) in [(&input, VERSIONS_INPUT), (&output, VERSIONS_OUTPUT)] {
        assert_eq!(CRC32.of(&bytes[..size]), sum);
    }
    assert_eq!(input[VERSIONS_INPUT.0], SET_UP);
    let before = &output[..VERSIONS_OUTPUT.0];
    let lines = before.iter().filter(|byte| **byte == b'\n').count();
    assert_eq!(lines, VERSIONS_LINES);
}

#[test]
fn padded_links_stay_behind_lowest_versions() {
    let (input, output) = (input(), output(&input()));
    for (bytes, (size, sum)) in [(&input, PADDED_INPUT), (&output, PADDED_OUTPUT)] {
        assert_eq!(CRC32.of(&bytes[..size]), sum);
    }
    assert_eq!(input[PADDED_INPUT.0], SET_UP);
    let lines = |bytes: &[u8]| bytes.iter().filter(|byte| **byte == b'\n').count();
    assert_eq!(lines(&output[..PADDED_OUTPUT.0]), PADDED_LINES);
    let new = lines(&output[PADDED_OUTPUT.0..CIPHERED_OUTPUT.0]);
    assert!((20_000..=40_000).contains(&new), "{new}");
}

#[test]
fn ciphered_links_stay_behind_padded_ones() {
    let (input, output) = (input(), output(&input()));
    for (bytes, (size, sum)) in [(&input, CIPHERED_INPUT), (&output, CIPHERED_OUTPUT)] {
        assert_eq!(CRC32.of(&bytes[..size]), sum);
    }
    assert_eq!(input[CIPHERED_INPUT.0], NEW);
    let lines = |bytes: &[u8]| bytes.iter().filter(|byte| **byte == b'\n').count();
    assert_eq!(lines(&output[..CIPHERED_OUTPUT.0]), CIPHERED_LINES);
    let new = lines(&output[CIPHERED_OUTPUT.0..]);
    assert!((100..=400).contains(&new), "{new}");
}

const KEY: [u8; 32] = *b"KEY! and behind it whatever else";

/// A server set to either or to cipher only.
fn server(only: u8, key: &[u8]) -> Vec<u8> {
    let length = key.len() as u8;
    [&[SET_UP, 1, 0, 0, 0, 1, only, length, 0], key].concat()
}

fn receive_nonce(encryption: u8, key_id: &[u8; 4]) -> Vec<u8> {
    let mut body = nonce_body(1, 5, [6; 16]);
    body[..4].copy_from_slice(key_id);
    body[4] = encryption;
    let packet = packet::whole(packet::FIRST_NUMBER, packet::NONCE, &body, CRC32);
    [&[RECEIVE, 5, 0, 0, 0, 76, 0, 0, 0][..], &packet].concat()
}

/// The records of a ciphered link, byte by byte.
#[test]
fn the_records_of_a_ciphered_link() {
    let taken = "packet 7acb87aa 76 12 60 clock 0";
    for (only, then, expected) in [
        (0, server(0, b""), ["no 36", "clear"]),
        (1, server(1, b""), ["no 36", "clear"]),
        (0, receive_nonce(0, b"KEY?"), [taken, "clear"]),
        (0, receive_nonce(1, b"KEY!"), [taken, "cipher"]),
        (1, receive_nonce(7, b"KEY!"), [taken, "cipher"]),
        (
            0,
            receive_nonce(2, b"KEY?"),
            ["no 9 closed", "clear closed"],
        ),
        (
            1,
            receive_nonce(0, b"KEY!"),
            ["no 9 closed", "clear closed"],
        ),
    ] {
        let records = [server(only, &KEY), vec![TELL], then, vec![TELL]].concat();
        let lines = String::from_utf8(output(&records)).unwrap();
        let expected = [&["link", "clear"], &expected[..]].concat();
        assert_eq!(lines.lines().collect::<Vec<_>>(), expected);
    }
}

/// A record of each setting and of a flush, byte by byte.
#[test]
fn the_records_of_a_padded_link() {
    let set_up = |padded| [SET_UP, 0, 1, 0, padded, 0, 0, 0, 0];
    let flush = [FLUSH, 2, 0, 0, 0];
    let records = [&set_up(1)[..], &flush, &set_up(0), &flush].concat();
    let (one, other) = (CRC32.of(&[FILLING; 2]), CRC32C.of(&[FILLING; 2]));
    let line = format!("link\nflush 0 {one:08x} {other:08x}\n");
    assert_eq!(output(&records), line.repeat(2).into_bytes());
}

#[test]
fn a_refused_set_up_leaves_the_newest_link() {
    let refused = [SET_UP, 1, 0, 3, 0, 0, 0, 0, 0];
    let taken = [SET_UP, 1, 0, 2, 0, 0, 0, 0, 0];
    // A length of 1 closes the link.
    let closing = [RECEIVE, 0, 0, 0, 0, 4, 0, 0, 0, 1, 0, 0, 0];
    let nothing = [RECEIVE, 0, 0, 0, 0, 0, 0, 0, 0];
    let records = [
        &refused[..],
        &taken,
        &refused,
        &nothing,
        &closing,
        &refused,
        &taken,
    ];
    let lines = String::from_utf8(output(&records.concat())).unwrap();
    let expected = "no 30\nlink\nno 30\nwait 4\nno 1 closed\nno 30 closed\nlink\n";
    assert_eq!(lines, expected);
}

#[test]
fn lines_of_closed_links_are_refusals_or_tell() {
    let text = text();
    for line in text.lines().filter(|line| line.ends_with(" closed")) {
        let told = ["cipher closed", "clear closed"].contains(&line);
        assert!(told || line.starts_with("no "), "{line}");
    }
}

#[test]
fn within_the_agreed_size() {
    assert!(input().len() <= 6_800_000, "{}", input().len());
}
