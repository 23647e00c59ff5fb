//! Every pair of settings, in every version: the links open clear or ciphered, or
//! do not open, as document 02 says.

use crate::by_hand::ByHand;
use crate::pair::{self, answer, assert_heard, request, Pair, HANDSHAKE};
use crate::tables;
use crate::{CIPHERS, KEY, NOW, SIDES};
use relay::{Addresses, Cipher, Fault, Refusal, Session, Settings, Side, ToSend};

const REFUSED: Fault = Fault::Refused(Refusal::ENCRYPTION);

#[test]
fn two_sessions_open_as_their_settings_say() {
    for client in CIPHERS {
        for server in CIPHERS {
            let mut pair = Pair::new(client, server);
            let opened = pair.open(&mut |rest| rest);
            let chosen = tables::answer(server, tables::offer(client));
            let chosen = chosen.filter(|&answered| tables::is_taken(client, answered));
            let what = format!("{client:?}, {server:?}");
            let Some(encryption) = chosen else {
                assert_eq!(opened, Err(REFUSED), "{what}");
                assert!(pair.client.is_closed() || pair.server.is_closed());
                continue;
            };
            assert_eq!(opened, Ok(()), "{what}");
            for side in SIDES {
                assert_eq!(pair.at(side).is_ciphered(), encryption == 1, "{what}");
            }
            let asked = ToSend::Message(request(b"request"));
            let heard = pair.pass_whole(Side::Client, &[asked]).unwrap();
            assert_heard(Side::Server, &heard, &[request(b"request")]);
            let answered = ToSend::Message(answer(b"page"));
            let heard = pair.pass_whole(Side::Server, &[answered]).unwrap();
            assert_heard(Side::Client, &heard, &[answer(b"page")]);
            // What went over is clear exactly where no cipher was chosen.
            let [up, down] = &pair.wire;
            let is_clear = |wire: &[u8], text: &[u8]| wire.windows(text.len()).any(|w| w == text);
            assert_eq!(is_clear(up, b"request"), encryption == 0, "{what}");
            assert_eq!(is_clear(down, b"page"), encryption == 0, "{what}");
        }
    }
}

/// A peer by hand of each version, with each encryption byte, at either side.
#[test]
fn every_version_and_encryption_opens_as_the_tables_say() {
    for side in SIDES {
        for cipher in CIPHERS {
            for version in 0..=2 {
                for theirs in [0, 1, 2, 3, 255] {
                    let chosen = tables::chosen(side, cipher, theirs);
                    let ours = pair::session(side, cipher);
                    let talked = talk(ours, side, version, theirs);
                    let what = format!("{side:?}, {cipher:?}, version {version}, {theirs}");
                    match chosen {
                        None => assert_eq!(talked, Err(REFUSED), "{what}"),
                        Some(chosen) => assert_eq!(talked, Ok(chosen == 1), "{what}"),
                    }
                }
            }
        }
    }
}

/// Our session of this side opens against a peer by hand, which pings; whether
/// through the cipher.
pub fn talk(mut ours: Session, side: Side, version: u8, theirs: u8) -> Result<bool, Fault> {
    let mut peer = ByHand::new(side, version);
    let random = pair::random(side);
    if side == Side::Client {
        ours.send(ToSend::Nonce { random }, NOW)?;
        peer.take_nonce(&ours.take_output());
    }
    ours.feed(&peer.nonce(theirs));
    ours.next(NOW)?.expect("a Nonce");
    if side == Side::Server {
        ours.send(ToSend::Nonce { random }, NOW)?;
        peer.take_nonce(&ours.take_output());
    }
    if ours.is_ciphered() {
        peer.derive();
    }
    // A client's Handshake is the first.
    if side == Side::Client {
        ours.send(HANDSHAKE, NOW)?;
    }
    ours.feed(&peer.handshake());
    ours.next(NOW)?.expect("a Handshake");
    if side == Side::Server {
        ours.send(HANDSHAKE, NOW)?;
    }
    assert!(ours.is_open());
    ours.feed(&peer.ping(9));
    ours.next(NOW)?.expect("a Ping");
    ours.send(ToSend::Pong, NOW)?;
    let packets = peer.read(&ours.take_output());
    let pong = packets.last().expect("a Pong");
    assert_eq!(*pong, (relay::packet_type::PONG, vec![9; 8]));
    Ok(ours.is_ciphered())
}

/// The lowest version holds on ciphered links too, and comes first.
#[test]
fn an_old_version_is_refused_before_its_encryption() {
    for cipher in CIPHERS {
        for encryption in [0, 1] {
            let settings = Settings::new(Side::Server, true).with_cipher(cipher);
            let settings = settings.with_lowest(2);
            let card = pair::Plain(1);
            let mut server = Session::with_key(settings, &KEY, card, Addresses::default()).unwrap();
            server.feed(&ByHand::new(Side::Server, 1).nonce(encryption));
            let refused = Fault::Refused(Refusal::VERSION_TOO_OLD);
            assert_eq!(server.next(NOW), Err(refused));
        }
    }
}

#[test]
fn a_session_that_may_cipher_has_a_key_that_a_link_takes() {
    for side in SIDES {
        for cipher in [Cipher::CipherOnly, Cipher::Either] {
            let settings = Settings::new(side, true).with_cipher(cipher);
            let none = Session::new(settings).err();
            assert_eq!(none, Some(Refusal::UNSUITABLE_KEY));
            let card = pair::Plain(1);
            let short = Session::with_key(settings, &KEY[..31], card, Addresses::default());
            assert_eq!(short.err(), Some(Refusal::UNSUITABLE_KEY));
        }
    }
}
