//! The keys check's input and output (document 02, A8). A record is a kind:
//!
//! - 1 digests n (4 bytes) and n bytes; its line is n, MD5 and SHA-1;
//! - 2 derives, see `keys_request`; its line is the message's size, the message
//!   out of the buffer, the AES key and the vector, or `no` and the number, and
//!   behind either the CRC-32 of the whole buffer;
//! - 3 sets up a link: side (0 client, 1 server), whether CRC-32C is allowed,
//!   lowest version, whether it is padded, then n (4 bytes) and the key; its
//!   line is `link` and the KeyID that the link keeps;
//! - 4 reads n (4 bytes) and a Nonce's body of n bytes; its line is version,
//!   time, the random bytes and the point, or a dash for no point.
//!
//! A refusal's line is `no` and its number.

use super::keys_digests;
use super::keys_lengths;
use super::keys_nonces;
use super::keys_parts;
use super::keys_printed;
use super::keys_random;
use super::keys_refusals;
use super::keys_request;
use super::keys_set_ups;
use super::link_settings::take_side;
use super::records::Records;
use crate::checksum::CRC32;
use crate::hash::{md5, sha1};
use crate::hexadecimal::hexadecimal;
use crate::keys;
use crate::link::{nonce_fields, Cipher, Link, Settings};
use crate::refusal::Refusal;

pub const DIGEST: u8 = 1;
pub const DERIVE: u8 = 2;
pub const SET_UP: u8 = 3;
pub const NONCE: u8 = 4;

/// The most that an input, a key or a buffer may have here.
pub const LONGEST: usize = 8192;

pub fn input() -> Vec<u8> {
    let mut records = Vec::new();
    keys_digests::push(&mut records);
    keys_printed::push(&mut records);
    keys_lengths::push(&mut records);
    keys_refusals::push(&mut records);
    keys_parts::push(&mut records);
    keys_random::push(&mut records);
    keys_set_ups::push(&mut records);
    keys_nonces::push(&mut records);
    records
}

pub fn output(records: &[u8]) -> Vec<u8> {
    let mut records = Records(records);
    let mut lines = String::new();
    while let Some(kind) = records.op() {
        let line = match kind {
            DIGEST => Ok(digests(records.run())),
            DERIVE => Ok(derivation(&mut records)),
            SET_UP => set_up(&mut records),
            NONCE => nonce(records.run()),
            _ => unreachable!("kind {kind}"),
        };
        lines += &line.unwrap_or_else(|refusal| format!("no {}", refusal.number()));
        lines.push('\n');
    }
    lines.into_bytes()
}

fn digests(message: &[u8]) -> String {
    let (one, other) = (hexadecimal(&md5(message)), hexadecimal(&sha1(message)));
    format!("{} {one} {other}", message.len())
}

fn derivation(records: &mut Records) -> String {
    let (request, mut buffer) = keys_request::take(records);
    let derived = keys::derive(&request, &mut buffer);
    let sum = CRC32.of(&buffer);
    match derived {
        Ok(keys) => {
            let message = hexadecimal(&buffer[..keys.size]);
            let (key, vector) = (hexadecimal(&keys.key), hexadecimal(&keys.vector));
            format!("{} {message} {key} {vector} {sum:08x}", keys.size)
        }
        Err(refusal) => format!("no {} {sum:08x}", refusal.number()),
    }
}

fn set_up(records: &mut Records) -> Result<String, Refusal> {
    let settings = Settings {
        side: take_side(records),
        crc32c_allowed: records.flag(),
        lowest_version: records.u8(),
        padded: records.flag(),
        cipher: Cipher::ClearOnly,
    };
    let link = Link::set_up_with_key(settings, records.run())?;
    Ok(format!("link {}", hexadecimal(&link.state().key_id)))
}

fn nonce(body: &[u8]) -> Result<String, Refusal> {
    let fields = nonce_fields(body)?;
    let random = hexadecimal(fields.random.of(body));
    let point = fields.point.map(|point| hexadecimal(point.of(body)));
    let point = point.unwrap_or("-".to_string());
    Ok(format!(
        "{} {} {random} {point}",
        fields.version, fields.time
    ))
}

#[cfg(test)]
mod tests {
    use super::*;

    fn lines(records: &[u8]) -> String {
        String::from_utf8(output(records)).unwrap()
    }

    #[test]
    fn lines_of_digests_set_ups_and_nonces_by_hand() {
        let digest = [DIGEST, 3, 0, 0, 0, b'a', b'b', b'c'];
        let taken = [&[SET_UP, 1, 0, 2, 1, 32, 0, 0, 0, 0, 0, 0xa][..], &[9; 29]].concat();
        let refused = [SET_UP, 0, 1, 3, 0, 1, 0, 0, 0, 1];
        let mut body = [8; 60];
        body[5] = 1;
        let old = [&[NONCE, 60, 0, 0, 0][..], &body].concat();
        body[5] = 2;
        let new = [&[NONCE, 60, 0, 0, 0][..], &body].concat();
        let short = [NONCE, 1, 0, 0, 0, 9];
        let records = [&digest[..], &taken, &refused, &old, &new, &short].concat();
        let expected = [
            "3 900150983cd24fb0d6963f7d28e17f72 a9993e364706816aba3e25717850c26c9cd0d89d",
            "link 00000a09",
            "no 36",
            &format!("1 134744072 {} -", "08".repeat(16)),
            &format!("2 134744072 {} {}", "08".repeat(16), "08".repeat(32)),
            "no 7",
        ];
        let found = lines(&records);
        assert_eq!(found.lines().collect::<Vec<_>>(), expected);
    }

    #[test]
    fn every_refusal_and_answer_occurs() {
        let text = lines(&input());
        let count = |form: &dyn Fn(&[&str]) -> bool| {
            let words = |line: &str| form(&line.split(' ').collect::<Vec<_>>());
            text.lines().filter(|line| words(line)).count()
        };
        for (refusal, least) in [("16", 100), ("30", 100), ("36", 35)] {
            let of_derivation = |words: &[&str]| words.len() == 3 && words[1] == refusal;
            assert!(
                count(&of_derivation) >= least,
                "derivations refused {refusal}"
            );
        }
        for (refusal, least) in [("7", 200), ("30", 15), ("36", 60)] {
            let of_others = |words: &[&str]| words == ["no", refusal];
            assert!(count(&of_others) >= least, "no {refusal}");
        }
        assert!(count(&|words| words.len() == 3 && words[1].len() == 32) >= 600);
        assert!(count(&|words| words.len() == 5) >= 1000);
        assert!(count(&|words| words[0] == "link") >= 100);
        assert!(count(&|words| words.len() == 4) >= 400);
    }

    /// What was stored before links were ciphered: size and CRC-32 of input and
    /// output.
    const BASE_INPUT: (usize, u32) = (1_444_633, 0x4F7E_806A);
    const BASE_OUTPUT: (usize, u32) = (881_496, 0x7ECC_9AEA);

    #[test]
    fn the_base_stays_in_front() {
        let input = input();
        for (bytes, (size, sum)) in [(&input, BASE_INPUT), (&output(&input), BASE_OUTPUT)] {
            assert_eq!(CRC32.of(&bytes[..size]), sum);
        }
    }

    #[test]
    fn within_the_agreed_size() {
        let input = input();
        assert!(input.len() < 1_500_000, "{}", input.len());
        let output = output(&input);
        assert!(output.len() < 1_500_000, "{}", output.len());
    }
}
