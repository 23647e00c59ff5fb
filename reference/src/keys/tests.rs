use super::*;
use crate::hexadecimal::hexadecimal;

struct Vector {
    version: u8,
    sender: Side,
    message: &'static str,
    key: &'static str,
    vector: &'static str,
}

/// As the protocol document prints them, without the breaks. Three messages
/// have an odd number of digits: version 1 from the client, and version 2 both
/// ways. Each has 13 zeros behind the direction, where the parts (client IP 4
/// bytes, server port 2) have 12; without one of them each is what the parts
/// give, and has the printed key and vector.
const VECTORS: [Vector; 6] = [
    Vector {
        version: 0,
        sender: Side::Client,
        message: "4142434445464748494a4b4c4d4e4f506162636465666768696a6b\
                  6c6d6e6f7004030201100f0e0d0a09434c49454e540807060512116\
                  872656e4142434445464748494a4b4c4d4e4f50616263646566676\
                  8696a6b6c6d6e6f70",
        key: "28b5a5313b3ea9e2f6f0293e0748b2f743b0e112779faa77a3ee9d71ae70dda6",
        vector: "80387128489168b336d998762bce6fef",
    },
    Vector {
        version: 0,
        sender: Side::Server,
        message: "4142434445464748494a4b4c4d4e4f506162636465666768696a6b\
                  6c6d6e6f7004030201100f0e0d0a09534552564552080706051211\
                  6872656e4142434445464748494a4b4c4d4e4f5061626364656667\
                  68696a6b6c6d6e6f70",
        key: "e3cf8557ea4ad963c3b637d466388403841d2e989a1fc684ac691c44b05ac9bb",
        vector: "1efd4c8aa43a87d1ea5488a1bc669269",
    },
    Vector {
        version: 1,
        sender: Side::Client,
        message: "4142434445464748494a4b4c4d4e4f506162636465666768696a6b\
                  6c6d6e6f7004030201100f0e0d0000434c49454e540000000000000\
                  6872656e4142434445464748494a4b4c4d4e4f5061626364656667\
                  68696a6b6c6d6e6f70",
        key: "373374076f52d8f6bb5b063f17b9eb9fb4194e429cf02e207300add4c28a8e57",
        vector: "cea8f827019de36741f73e5948aea5be",
    },
    Vector {
        version: 1,
        sender: Side::Server,
        message: "4142434445464748494a4b4c4d4e4f506162636465666768696a6b\
                  6c6d6e6f7004030201100f0e0d0000534552564552000000000000\
                  6872656e4142434445464748494a4b4c4d4e4f5061626364656667\
                  68696a6b6c6d6e6f70",
        key: "3ce0c95487d99754688e0508a036c8c02727f297d0311db6273d69c07ac7a0d2",
        vector: "34411262ac3e172bc1a2d086b4f1ecb5",
    },
    Vector {
        version: 2,
        sender: Side::Client,
        message: "4142434445464748494a4b4c4d4e4f506162636465666768696a6b\
                  6c6d6e6f7004030201100f0e0d0000434c49454e540000000000000\
                  6872656e4142434445464748494a4b4c4d4e4f5061626364656667\
                  68696a6b6c6d6e6f704541d9fd5263298736d6ecdfa8c5834e12b54\
                  e2ad3bb95a50d2085dd4075f458",
        key: "c513a88366728c719ffe885d943b0faa701ff7f0b061311b9af5fa5a0ec830ef",
        vector: "bbaf9484282c1d021c21d9da05e822c0",
    },
    Vector {
        version: 2,
        sender: Side::Server,
        message: "4142434445464748494a4b4c4d4e4f506162636465666768696a6b\
                  6c6d6e6f7004030201100f0e0d00005345525645520000000000000\
                  6872656e4142434445464748494a4b4c4d4e4f5061626364656667\
                  68696a6b6c6d6e6f704541d9fd5263298736d6ecdfa8c5834e12b54\
                  e2ad3bb95a50d2085dd4075f458",
        key: "987d9938b0ea97bae1604e78d47131a5b0dc426054d5f9423d14f867480dce1d",
        vector: "cf55ffd9615629f9cc7fc6b14d9a48f8",
    },
];

/// Without the zero too many, if the number of digits shows that there is one.
fn mended(printed: &str) -> String {
    let (thirteen, twelve) = ("0000000000000", "000000000000");
    if printed.len() % 2 == 1 {
        assert_eq!(printed.matches(thirteen).count(), 1);
        printed.replace(thirteen, twelve)
    } else {
        printed.to_string()
    }
}

#[test]
fn the_printed_vectors() {
    for printed in VECTORS {
        let request = printed::request(printed.version, printed.sender);
        let message = init_message(&request);
        assert_eq!(hexadecimal(&message), mended(printed.message));

        let mut buffer = [0xa5; 130];
        let keys = derive(&request, &mut buffer).unwrap();
        assert_eq!(hexadecimal(&keys.key), printed.key);
        assert_eq!(hexadecimal(&keys.vector), printed.vector);
        let (front, behind) = buffer.split_at(keys.size);
        assert_eq!(front, message);
        assert!(behind.iter().all(|byte| *byte == 0xa5));
    }
}

/// Of which versions and senders they are.
#[test]
fn the_printed_messages_of_odd_length() {
    let odd: Vec<(u8, Side)> = VECTORS
        .iter()
        .filter(|printed| printed.message.len() % 2 == 1)
        .map(|printed| (printed.version, printed.sender))
        .collect();
    let expected = [(1, Side::Client), (2, Side::Client), (2, Side::Server)];
    assert_eq!(odd, expected);
}

/// The number of the refusal, or 0; what is refused writes nothing.
fn judged(version: u8, key: usize, room: usize) -> u8 {
    let key = vec![0; key];
    let request = Request {
        version,
        key: &key,
        ..printed::request(version, Side::Client)
    };
    let mut buffer = vec![0xa5; room];
    let number = derive(&request, &mut buffer)
        .err()
        .map_or(0, Refusal::number);
    let untouched = buffer.iter().all(|byte| *byte == 0xa5);
    assert_eq!(untouched, number != 0);
    number
}

#[test]
fn refusals_in_their_order() {
    let expected = [
        (0, 4097, 5000, 36),
        (3, 4097, 5000, 36),
        (0, 4097, 0, 36),
        (255, 4097, 0, 36),
        (3, 4096, 5000, 30),
        (3, 0, 0, 30),
        (255, 0, 85, 30),
    ];
    for (version, key, room, number) in expected {
        assert_eq!(judged(version, key, room), number);
    }
}

#[test]
fn every_length_of_a_key_up_to_the_longest() {
    for (version, around) in [(0, 86), (1, 86), (2, 118)] {
        for key in [0, 1, 4, 31, 32, 4095, 4096] {
            assert_eq!(judged(version, key, around + key), 0);
            assert_eq!(judged(version, key, around + key - 1), 16);
            assert_eq!(judged(version, key, 0), 16);
        }
    }
}
