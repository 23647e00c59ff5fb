//! Another key at the other end, and bytes that were changed under way: nothing
//! is taken for a packet that was not sent.

use crate::pair::{self, all, answer, request, Heard, Pair, HANDSHAKE};
use crate::{Random, KEY, NOW};
use relay::{packet_type, Cipher, Fault, Refusal, Session, Side, ToSend};

/// The Nonces go over, and the client sends its Handshake; what the server says.
fn handshake(client: Session, server: Session) -> (Result<Heard, Fault>, Pair) {
    let mut pair = Pair::of(client, server);
    let mut answer = Ok(vec![]);
    for sender in crate::SIDES {
        let random = pair::random(sender);
        answer = pair.pass_whole(sender, &[ToSend::Nonce { random }]);
        if answer.is_err() {
            return (answer, pair);
        }
    }
    assert_eq!(answer.unwrap().len(), 1);
    (pair.pass_whole(Side::Client, &[HANDSHAKE]), pair)
}

/// The same KeyID, and another rest: the Nonces do not tell.
#[test]
fn another_key_with_the_same_key_id_reads_no_handshake() {
    let mut random = Random(3);
    for n in 0..300 {
        let mut other = KEY.to_vec();
        match n {
            0 => other.truncate(32),
            1 => other.push(0),
            _ => other[4 + random.below(36)] ^= 1 << random.below(8),
        }
        let client = pair::session_with(Side::Client, Cipher::CipherOnly, &other);
        let server = pair::session(Side::Server, Cipher::Either);
        let (answer, pair) = handshake(client, server);
        assert!(matches!(answer, Err(Fault::Refused(_))), "{answer:?}");
        assert!(pair.server.is_closed() && !pair.server.is_open());
    }
}

#[test]
fn another_key_id_is_refused_where_the_cipher_is_chosen() {
    let mut other = KEY;
    other[3] ^= 1;
    let refused = Err(Fault::Refused(Refusal::ENCRYPTION));
    for cipher in [Cipher::CipherOnly, Cipher::Either] {
        let client = pair::session_with(Side::Client, cipher, &other);
        let server = pair::session(Side::Server, Cipher::Either);
        let (answer, pair) = handshake(client, server);
        assert_eq!(answer, refused);
        assert!(pair.server.is_closed());
    }
    // Where the link goes clear, it is no matter.
    let client = pair::session_with(Side::Client, Cipher::Either, &other);
    let server = pair::session(Side::Server, Cipher::ClearOnly);
    let (answer, _) = handshake(client, server);
    assert_eq!(answer.unwrap()[0].0, packet_type::HANDSHAKE);
}

/// Version 2's shared bytes are in the keys.
#[test]
fn another_shared_secret_reads_no_handshake() {
    use relay::{Addresses, Settings};
    let settings = Settings::new(Side::Client, true).with_cipher(Cipher::CipherOnly);
    struct Liar;
    impl relay::Card for Liar {
        fn point(&mut self) -> [u8; 32] {
            [3; 32]
        }
        fn shared(&mut self, _: &[u8; 32]) -> Option<[u8; 32]> {
            Some([0; 32])
        }
    }
    let client = Session::with_key(settings, &KEY, Liar, Addresses::default()).unwrap();
    let (answer, pair) = handshake(client, pair::session(Side::Server, Cipher::Either));
    assert!(matches!(answer, Err(Fault::Refused(_))));
    assert!(pair.server.is_closed());
}

/// A server that has heard all up to the client's bytes that are to be changed.
/// The conversation is the same each time.
fn server_before(wire: &[u8]) -> Session {
    let mut server = pair::session(Side::Server, Cipher::CipherOnly);
    server.feed(&wire[..76]);
    assert_eq!(all(&mut server).unwrap().len(), 1);
    let random = pair::random(Side::Server);
    server.send(ToSend::Nonce { random }, NOW).unwrap();
    server
}

/// What a server hears of these bytes, its Handshake sent in its turn.
fn heard(mut server: Session, bytes: &[u8]) -> (Heard, Option<Fault>) {
    server.feed(bytes);
    let mut heard = vec![];
    loop {
        match server.next(NOW) {
            Ok(Some(packet)) => {
                heard.push((packet.kind, packet.body.to_vec()));
                if packet.kind == packet_type::HANDSHAKE {
                    server.send(HANDSHAKE, NOW).unwrap();
                }
            }
            Ok(None) => return (heard, None),
            Err(fault) => {
                assert!(server.is_closed(), "{fault:?}");
                return (heard, Some(fault));
            }
        }
    }
}

/// The client's bytes of a conversation, and what the server hears of them.
fn conversation() -> (Vec<u8>, Heard) {
    let mut pair = Pair::new(Cipher::CipherOnly, Cipher::CipherOnly);
    pair.open(&mut |rest| rest).unwrap();
    for payload in [&b"a request of ours"[..], b"", b"another"] {
        let asked = ToSend::Message(request(payload));
        pair.pass_whole(Side::Client, &[asked]).unwrap();
        let answered = ToSend::Message(answer(payload));
        pair.pass_whole(Side::Server, &[answered]).unwrap();
    }
    let wire = pair.wire[0].clone();
    let (heard, fault) = heard(server_before(&wire), &wire[76..]);
    assert_eq!((heard.len(), fault), (4, None));
    (wire, heard)
}

/// Where it stops, the packets before are those that were sent.
#[test]
fn a_flipped_bit_anywhere_delivers_nothing_that_was_not_sent() {
    let (wire, sent) = conversation();
    let mut refused = 0;
    for at in 76..wire.len() {
        for bit in 0..8 {
            let mut changed = wire.clone();
            changed[at] ^= 1 << bit;
            let (heard, fault) = heard(server_before(&wire), &changed[76..]);
            assert!(
                heard.len() < 4 && heard == sent[..heard.len()],
                "{at}, {bit}"
            );
            refused += usize::from(fault.is_some());
        }
    }
    // A length that has become larger waits for more.
    assert!(refused * 10 > (wire.len() - 76) * 8 * 9, "{refused}");
}

/// A block lost, twice, or two in another order.
#[test]
fn blocks_out_of_order_deliver_nothing_that_was_not_sent() {
    let (wire, sent) = conversation();
    let blocks: Vec<&[u8]> = wire[76..].chunks(16).collect();
    for at in 0..blocks.len() - 1 {
        let mut lost = blocks.clone();
        lost.remove(at);
        let mut twice = blocks.clone();
        twice.insert(at, blocks[at]);
        let mut swapped = blocks.clone();
        swapped.swap(at, at + 1);
        for changed in [lost, twice, swapped] {
            let (heard, _) = heard(server_before(&wire), &changed.concat());
            assert!(heard.len() < 4 && heard == sent[..heard.len()], "{at}");
        }
    }
}

/// The client's own bytes, sent back to it: each direction has its own keys.
#[test]
fn one_directions_bytes_are_not_the_others() {
    let (wire, _) = conversation();
    let mut pair = Pair::new(Cipher::CipherOnly, Cipher::CipherOnly);
    for sender in crate::SIDES {
        let random = pair::random(sender);
        pair.pass_whole(sender, &[ToSend::Nonce { random }])
            .unwrap();
    }
    pair.client.send(HANDSHAKE, NOW).unwrap();
    pair.client.feed(&wire[76..124]);
    assert!(pair.client.next(NOW).is_err());
    assert!(pair.client.is_closed());
}
