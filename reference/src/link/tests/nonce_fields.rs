//! A Nonce's body taken apart.

use super::*;

const RANDOM: [u8; 16] = *b"0123456789abcdef";

#[test]
fn what_is_written_reads_back() {
    for version in [0, 1, 2] {
        for time in [0, 1, TIME, u32::MAX] {
            let body = nonce_body(version, time, RANDOM);
            let fields = nonce_fields(&body).unwrap();
            assert_eq!((fields.version, fields.time), (version, time));
            assert_eq!(fields.random.of(&body), RANDOM);
            let point = fields.point.map(|point| point.of(&body));
            let written = (version == 2).then_some(&[0; 32][..]);
            assert_eq!(point, written);
        }
    }
}

/// Each byte of the body is its own place.
#[test]
fn places_and_sizes() {
    for version in 0..=255 {
        let mut body: Vec<u8> = (0..70).collect();
        body[5] = version;
        let shortest = if version < 2 { 28 } else { 60 };
        for n in 0..=body.len() {
            let found = nonce_fields(&body[..n]);
            if n < shortest {
                assert_eq!(found, Err(Refusal::OpeningBodyShort));
                continue;
            }
            let fields = found.unwrap();
            assert_eq!((fields.version, fields.time), (version, 0x0b0a_0908));
            assert_eq!(fields.random.of(&body[..n]), &body[12..28]);
            let point = fields.point.map(|point| point.of(&body[..n]));
            assert_eq!(point, (version >= 2).then_some(&body[28..60]));
        }
    }
}
