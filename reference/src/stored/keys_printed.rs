//! The derivations that the protocol document prints.

use super::keys_request::{self, size, Lent};
use super::link_talk::SIDES;
use crate::keys::printed;

pub fn push(records: &mut Vec<u8>) {
    for version in printed::VERSIONS {
        for sender in SIDES {
            let request = printed::request(version, sender);
            let exact = size(version, request.key.len());
            for room in [exact, 200] {
                let filling = 0xa5;
                keys_request::push(records, &request, Lent { room, filling });
            }
        }
    }
}

#[cfg(test)]
mod tests {
    use super::super::keys_cases::output;
    use super::*;

    /// Keys and vectors, each for both buffers.
    #[test]
    fn the_lines_hold_the_printed_values() {
        let mut records = Vec::new();
        push(&mut records);
        let text = String::from_utf8(output(&records)).unwrap();
        let lines: Vec<&str> = text.lines().collect();
        let printed = [
            ("28b5a5313b3ea9e2", "80387128489168b336d998762bce6fef"),
            ("e3cf8557ea4ad963", "1efd4c8aa43a87d1ea5488a1bc669269"),
            ("373374076f52d8f6", "cea8f827019de36741f73e5948aea5be"),
            ("3ce0c95487d99754", "34411262ac3e172bc1a2d086b4f1ecb5"),
            ("c513a88366728c71", "bbaf9484282c1d021c21d9da05e822c0"),
            ("987d9938b0ea97ba", "cf55ffd9615629f9cc7fc6b14d9a48f8"),
        ];
        assert_eq!(lines.len(), 2 * printed.len());
        for (pair, (key, vector)) in lines.chunks(2).zip(printed) {
            for line in pair {
                let words: Vec<&str> = line.split(' ').collect();
                assert!(words[2].starts_with(key));
                assert_eq!(words[3], vector);
            }
        }
    }
}
