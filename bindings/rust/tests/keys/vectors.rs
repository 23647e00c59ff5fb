//! The vectors that the protocol document prints, line for line.
//!
//! Three of its init messages have an odd number of digits: that of version 1
//! from the client, and both of version 2. Each has 13 zeros behind the
//! direction, where the order of the parts has Client IP and Server Port, 12
//! digits, and so decides (document 02, A8). It prints the two Nonces without
//! their 15th letter, which the messages have.

use crate::bytes;
use relay::keys::{derive, Derivation, End, Ends};
use relay::Side;

/// The server's time is its IP again.
const PEERS: Ends = Ends {
    client: End {
        random: *b"abcdefghijklmnop",
        time: 0x0102_0304,
        ip: 0x0506_0708,
        port: 0x090a,
    },
    server: End {
        random: *b"ABCDEFGHIJKLMNOP",
        time: 0x0d0e_0f10,
        ip: 0x0d0e_0f10,
        port: 0x1112,
    },
};

const SHARED: [&str; 2] = [
    "4541d9fd5263298736d6ecdfa8c5834e12b54e2ad3bb95a50d2085",
    "dd4075f458",
];

struct Printed {
    version: u8,
    sender: Side,
    message: &'static [&'static str],
    key: [&'static str; 2],
    vector: &'static str,
}

impl Printed {
    fn is_odd(&self) -> bool {
        self.message.concat().len() % 2 == 1
    }

    /// The message, without the digit that is too many.
    fn message(&self) -> Vec<u8> {
        let mut digits = self.message.concat();
        if self.is_odd() {
            let direction = if self.sender == Side::Client {
                "434c49454e54"
            } else {
                "534552564552"
            };
            let zeros = digits.find(direction).unwrap() + direction.len();
            assert_eq!(digits[zeros..zeros + 13], "0".repeat(13));
            digits.remove(zeros);
        }
        bytes(&digits)
    }
}

const PRINTED: [Printed; 6] = [
    Printed {
        version: 0,
        sender: Side::Client,
        message: &[
            "4142434445464748494a4b4c4d4e4f506162636465666768696a6b",
            "6c6d6e6f7004030201100f0e0d0a09434c49454e540807060512116",
            "872656e4142434445464748494a4b4c4d4e4f50616263646566676",
            "8696a6b6c6d6e6f70",
        ],
        key: [
            "28b5a5313b3ea9e2f6f0293e0748b2f743b0e112779faa77a3ee9d7",
            "1ae70dda6",
        ],
        vector: "80387128489168b336d998762bce6fef",
    },
    Printed {
        version: 0,
        sender: Side::Server,
        message: &[
            "4142434445464748494a4b4c4d4e4f506162636465666768696a6b",
            "6c6d6e6f7004030201100f0e0d0a09534552564552080706051211",
            "6872656e4142434445464748494a4b4c4d4e4f5061626364656667",
            "68696a6b6c6d6e6f70",
        ],
        key: [
            "e3cf8557ea4ad963c3b637d466388403841d2e989a1fc684ac691c4",
            "4b05ac9bb",
        ],
        vector: "1efd4c8aa43a87d1ea5488a1bc669269",
    },
    Printed {
        version: 1,
        sender: Side::Client,
        message: &[
            "4142434445464748494a4b4c4d4e4f506162636465666768696a6b",
            "6c6d6e6f7004030201100f0e0d0000434c49454e540000000000000",
            "6872656e4142434445464748494a4b4c4d4e4f5061626364656667",
            "68696a6b6c6d6e6f70",
        ],
        key: [
            "373374076f52d8f6bb5b063f17b9eb9fb4194e429cf02e207300add4",
            "c28a8e57",
        ],
        vector: "cea8f827019de36741f73e5948aea5be",
    },
    Printed {
        version: 1,
        sender: Side::Server,
        message: &[
            "4142434445464748494a4b4c4d4e4f506162636465666768696a6b",
            "6c6d6e6f7004030201100f0e0d0000534552564552000000000000",
            "6872656e4142434445464748494a4b4c4d4e4f5061626364656667",
            "68696a6b6c6d6e6f70",
        ],
        key: [
            "3ce0c95487d99754688e0508a036c8c02727f297d0311db6273d69",
            "c07ac7a0d2",
        ],
        vector: "34411262ac3e172bc1a2d086b4f1ecb5",
    },
    Printed {
        version: 2,
        sender: Side::Client,
        message: &[
            "4142434445464748494a4b4c4d4e4f506162636465666768696a6b",
            "6c6d6e6f7004030201100f0e0d0000434c49454e540000000000000",
            "6872656e4142434445464748494a4b4c4d4e4f5061626364656667",
            "68696a6b6c6d6e6f704541d9fd5263298736d6ecdfa8c5834e12b54",
            "e2ad3bb95a50d2085dd4075f458",
        ],
        key: [
            "c513a88366728c719ffe885d943b0faa701ff7f0b061311b9af5fa5a0e",
            "c830ef",
        ],
        vector: "bbaf9484282c1d021c21d9da05e822c0",
    },
    Printed {
        version: 2,
        sender: Side::Server,
        message: &[
            "4142434445464748494a4b4c4d4e4f506162636465666768696a6b",
            "6c6d6e6f7004030201100f0e0d00005345525645520000000000000",
            "6872656e4142434445464748494a4b4c4d4e4f5061626364656667",
            "68696a6b6c6d6e6f704541d9fd5263298736d6ecdfa8c5834e12b54",
            "e2ad3bb95a50d2085dd4075f458",
        ],
        key: [
            "987d9938b0ea97bae1604e78d47131a5b0dc426054d5f9423d14f8",
            "67480dce1d",
        ],
        vector: "cf55ffd9615629f9cc7fc6b14d9a48f8",
    },
];

#[test]
fn every_printed_message_key_and_vector() {
    for printed in PRINTED {
        let what = Derivation {
            version: printed.version,
            sender: printed.sender,
            ends: PEERS,
            shared: bytes(&SHARED.concat()).try_into().unwrap(),
        };
        let mut buf = [0xee; 122];
        let keys = derive(&mut buf, &what, b"hren").unwrap();
        assert_eq!(*keys.message, printed.message(), "{what:?}");
        assert_eq!(keys.key[..], bytes(&printed.key.concat()), "{what:?}");
        assert_eq!(keys.vector[..], bytes(printed.vector), "{what:?}");
    }
}

#[test]
fn three_printed_messages_have_an_odd_number_of_digits() {
    let odd: Vec<_> = PRINTED.iter().filter(|printed| printed.is_odd()).collect();
    let names: Vec<_> = odd.iter().map(|odd| (odd.version, odd.sender)).collect();
    let expected = [(1, Side::Client), (2, Side::Client), (2, Side::Server)];
    assert_eq!(names, expected);
}
