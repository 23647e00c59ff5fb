//! What a derivation refuses, in which order, and that nothing is written then.

use crate::parts::{all, derivation, message};
use crate::{pattern, SIDES};
use relay::keys::{derive, Derivation, INIT_MESSAGE_MOST};
use relay::Refusal;

/// The refusal, where a buffer of so much room is as it was.
fn refusal(what: &Derivation, key: &[u8], room: usize) -> Option<Refusal> {
    let mut buf = vec![0xee; room];
    let refusal = derive(&mut buf, what, key).err();
    if refusal.is_some() {
        assert_eq!(buf, vec![0xee; room]);
    }
    refusal
}

#[test]
fn a_buffer_that_is_too_small() {
    for what in all() {
        for n in [0, 4, 32] {
            let size = message(&what, &pattern(n)).len();
            for room in 0..size {
                let refused = refusal(&what, &pattern(n), room);
                assert_eq!(refused, Some(Refusal::BUFFER_TOO_SMALL), "{room}");
            }
            assert_eq!(refusal(&what, &pattern(n), size), None);
        }
        let size = message(&what, &pattern(4096)).len();
        let refused = refusal(&what, &pattern(4096), size - 1);
        assert_eq!(refused, Some(Refusal::BUFFER_TOO_SMALL));
        assert_eq!(refusal(&what, &pattern(4096), size), None);
    }
}

#[test]
fn a_version_above_2() {
    for version in 3..=u8::MAX {
        for sender in SIDES {
            let what = derivation(version, sender);
            for n in [0, 32, 4096] {
                let refused = refusal(&what, &pattern(n), INIT_MESSAGE_MOST);
                assert_eq!(refused, Some(Refusal::OUT_OF_RANGE), "{version}");
            }
        }
    }
}

#[test]
fn a_key_that_is_too_long() {
    for what in all() {
        for n in [4097, 5000, 100_000] {
            let refused = refusal(&what, &pattern(n), 118 + n);
            assert_eq!(refused, Some(Refusal::UNSUITABLE_KEY), "{n}");
        }
    }
}

#[test]
fn the_order_of_refusals() {
    for sender in SIDES {
        for (n, version, room, expected) in [
            (4097, 3, 0, Some(Refusal::UNSUITABLE_KEY)),
            (4097, 2, 0, Some(Refusal::UNSUITABLE_KEY)),
            (4097, 3, 5000, Some(Refusal::UNSUITABLE_KEY)),
            (4096, 3, 0, Some(Refusal::OUT_OF_RANGE)),
            (0, 3, 0, Some(Refusal::OUT_OF_RANGE)),
            (4096, 2, 4213, Some(Refusal::BUFFER_TOO_SMALL)),
            (4096, 2, 4214, None),
            (4096, 1, 4181, Some(Refusal::BUFFER_TOO_SMALL)),
            (4096, 1, 4182, None),
            (0, 0, 85, Some(Refusal::BUFFER_TOO_SMALL)),
            (0, 0, 86, None),
        ] {
            let refused = refusal(&derivation(version, sender), &pattern(n), room);
            assert_eq!(refused, expected, "{n} bytes, version {version}, {room}");
        }
    }
}

/// A key that a link refuses is none that a derivation refuses.
#[test]
fn a_key_of_zeros() {
    for what in all() {
        for n in [4, 32, 4096] {
            assert_eq!(refusal(&what, &vec![0; n], INIT_MESSAGE_MOST), None);
        }
    }
}

/// What is refused, by the rules in their order.
fn expected(version: u8, n: usize, room: usize) -> Option<Refusal> {
    let size = n + if version == 2 { 118 } else { 86 };
    let rows = [
        (n > 4096, Refusal::UNSUITABLE_KEY),
        (version > 2, Refusal::OUT_OF_RANGE),
        (room < size, Refusal::BUFFER_TOO_SMALL),
    ];
    let first = rows.into_iter().find(|(holds, _)| *holds);
    first.map(|(_, refusal)| refusal)
}

#[test]
fn keys_of_all_sizes_in_rooms_of_all_sizes() {
    let key = pattern(4200);
    for n in (0..=130).chain(4080..=4200) {
        for (version, sender) in [0, 1, 2, 3, 255].into_iter().zip(SIDES.into_iter().cycle()) {
            let what = derivation(version, sender);
            for room in [
                0,
                85,
                86,
                117,
                118,
                n + 85,
                n + 86,
                n + 117,
                n + 118,
                n + 200,
            ] {
                let refused = refusal(&what, &key[..n], room);
                let expected = expected(version, n, room);
                assert_eq!(refused, expected, "{n} bytes, version {version}, {room}");
            }
        }
    }
}
