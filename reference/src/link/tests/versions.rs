//! Lowest versions.

use super::*;

fn with_lowest(side: Side, lowest_version: u8) -> Settings {
    Settings {
        lowest_version,
        ..Settings::new(side, true)
    }
}

/// A link that awaits the other's Nonce.
fn awaiting_nonce(side: Side, lowest_version: u8) -> Link {
    let mut link = Link::set_up(with_lowest(side, lowest_version)).unwrap();
    if side == Side::Client {
        sent(&mut link, NONCE_OUT);
    }
    link
}

#[derive(Clone, Copy, Debug)]
struct Fields {
    encryption: u8,
    version: u8,
    size: usize,
    clock: i32,
}

impl Fields {
    fn packet(self) -> Vec<u8> {
        let time = TIME.wrapping_add_signed(self.clock);
        let mut body = nonce_body(self.version, time, [0; 16]);
        body[4] = self.encryption;
        body.resize(self.size, 0);
        packet::whole(packet::FIRST_NUMBER, NONCE, &body, CRC32)
    }
}

/// The number of the refusal, or 0; only what is refused closes the link.
fn judged(side: Side, lowest_version: u8, packet: &[u8]) -> u8 {
    let mut link = awaiting_nonce(side, lowest_version);
    let number = link.receive(packet, TIME).err().map_or(0, Refusal::number);
    assert_eq!(link.is_closed(), number != 0);
    number
}

fn of_version(version: u8) -> Fields {
    Fields {
        encryption: 0,
        version,
        size: 60,
        clock: 0,
    }
}

#[test]
fn versions_below_the_lowest_are_24() {
    let expected = [
        (Side::Client, 0, [0, 0, 0, 10, 10]),
        (Side::Client, 1, [24, 0, 0, 10, 10]),
        (Side::Client, 2, [24, 24, 0, 10, 10]),
        (Side::Server, 0, [0, 0, 0, 0, 0]),
        (Side::Server, 1, [24, 0, 0, 0, 0]),
        (Side::Server, 2, [24, 24, 0, 0, 0]),
    ];
    for (side, lowest, numbers) in expected {
        let number = |version| judged(side, lowest, &of_version(version).packet());
        assert_eq!([0, 1, 2, 3, 255].map(number), numbers, "{side:?} {lowest}");
    }
}

/// Each with all that comes behind it in the order wrong as well.
#[test]
fn a_low_version_comes_after_8_and_before_9() {
    let expected = [
        (1, 1, 27, 31, 7),
        (1, 1, 28, 31, 8),
        (1, 1, 28, -31, 8),
        (1, 1, 28, -30, 24),
        (2, 0, 60, 30, 24),
        (0, 1, 60, 0, 24),
        (1, 2, 59, 31, 7),
        (1, 2, 60, 31, 8),
        (1, 2, 60, 30, 9),
        (1, 3, 60, 30, 9),
    ];
    for side in [Side::Client, Side::Server] {
        for (encryption, version, size, clock, number) in expected {
            let fields = Fields {
                encryption,
                version,
                size,
                clock,
            };
            let found = judged(side, 2, &fields.packet());
            assert_eq!(found, number, "{side:?} {fields:?}");
        }
        let mut wrong_sum = of_version(1).packet();
        wrong_sum[75] ^= 1;
        assert_eq!(judged(side, 2, &wrong_sum), 6);
    }
}

/// Document 01 alone, for links that were not told a lowest version.
fn by_document_01(side: Side, fields: Fields) -> u8 {
    let shortest = if fields.version >= 2 { 60 } else { 28 };
    let other_encryption = match side {
        Side::Client => fields.encryption != 0,
        Side::Server => fields.encryption == 1,
    };
    if fields.size < shortest {
        7
    } else if !(-30..=30).contains(&fields.clock) {
        8
    } else if other_encryption {
        9
    } else if side == Side::Client && fields.version > 2 {
        10
    } else {
        0
    }
}

#[test]
fn lowest_version_0_changes_nothing() {
    for side in [Side::Client, Side::Server] {
        for encryption in [0, 1, 2, 255] {
            for version in [0, 1, 2, 3, 255] {
                for size in [6, 27, 28, 59, 60, 61] {
                    for clock in [-31, -30, 0, 30, 31] {
                        let fields = Fields {
                            encryption,
                            version,
                            size,
                            clock,
                        };
                        let found = judged(side, 0, &fields.packet());
                        let expected = by_document_01(side, fields);
                        assert_eq!(found, expected, "{side:?} {fields:?}");
                    }
                }
            }
        }
    }
}

#[test]
fn a_lowest_version_is_at_most_2() {
    for side in [Side::Client, Side::Server] {
        for crc32c_allowed in [false, true] {
            for lowest_version in 0..=255 {
                let settings = Settings {
                    crc32c_allowed,
                    ..with_lowest(side, lowest_version)
                };
                let state = Link::set_up(settings).map(|link| link.state());
                match lowest_version {
                    0..=2 => assert_eq!(state.unwrap().settings, settings),
                    _ => assert_eq!(state.unwrap_err().number(), 30),
                }
            }
            let not_said = Link::new(side, crc32c_allowed).state().settings;
            assert_eq!(not_said.lowest_version, 0);
        }
    }
}

#[test]
fn a_link_closed_by_24_answers_20() {
    for side in [Side::Client, Side::Server] {
        let mut link = awaiting_nonce(side, 2);
        let before = link.state();
        let low = link.receive(&of_version(1).packet(), TIME);
        assert_eq!(low, Err(Refusal::VersionTooLow));
        let closed = State {
            closed: true,
            ..before
        };
        assert_eq!(link.state(), closed);
        let again = link.receive(&of_version(2).packet(), TIME);
        assert_eq!(again, Err(Refusal::LinkClosed));
        let sent = link.send(&NONCE_OUT, &mut [0; 100]);
        assert_eq!(sent, Err(Refusal::LinkClosed));
        assert_eq!(link.state(), closed);
    }
}

#[test]
fn a_server_never_writes_a_version_below_its_lowest() {
    for lowest in 0..=2 {
        for theirs in 0..=255 {
            let mut server = awaiting_nonce(Side::Server, lowest);
            let taken = server.receive(&of_version(theirs).packet(), TIME).is_ok();
            assert_eq!(taken, theirs >= lowest);
            if taken {
                let written = sent(&mut server, NONCE_OUT)[12 + 5];
                assert!(written >= lowest);
                assert_eq!(written, theirs.min(2));
            }
        }
    }
}

#[test]
fn our_own_links_take_each_other() {
    for client in 0..=2 {
        for server in 0..=2 {
            let pair = Pair {
                client: Link::set_up(with_lowest(Side::Client, client)).unwrap(),
                server: Link::set_up(with_lowest(Side::Server, server)).unwrap(),
            };
            let mut pair = pair.open();
            pair.pass(Side::Client, invoke(b"x"));
        }
    }
}
