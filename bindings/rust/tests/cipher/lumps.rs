//! What comes behind a Nonce in the same read is ciphered already.

use crate::pair::{self, all, random, request, Pair, HANDSHAKE};
use crate::{NOW, SIDES};
use relay::{packet_type, Cipher, Fault, Refusal, Side, ToSend};

/// All that each side sends in an opening and a request.
fn wires() -> [Vec<u8>; 2] {
    let mut pair = Pair::new(Cipher::CipherOnly, Cipher::CipherOnly);
    pair.open(&mut |rest| rest).unwrap();
    let asked = ToSend::Message(request(b"request"));
    pair.pass_whole(Side::Client, &[asked]).unwrap();
    pair.wire
}

/// A server with the same random bytes, time and card as before, so that the
/// client's bytes fit it, though they all come at once.
#[test]
fn a_server_that_gets_all_at_once_reads_each_in_its_turn() {
    let [up, down] = wires();
    let mut server = pair::session(Side::Server, Cipher::CipherOnly);
    server.feed(&up);
    let kind = |packet: Result<Option<relay::Packet>, Fault>| packet.map(|p| p.map(|p| p.kind));
    assert_eq!(kind(server.next(NOW)), Ok(Some(packet_type::NONCE)));
    let ours = Err(Fault::Refused(Refusal::NOT_OUR_TURN));
    assert_eq!(kind(server.next(NOW)), ours);
    let nonce = ToSend::Nonce {
        random: random(Side::Server),
    };
    server.send(nonce, NOW).unwrap();
    assert_eq!(kind(server.next(NOW)), Ok(Some(packet_type::HANDSHAKE)));
    assert_eq!(kind(server.next(NOW)), ours);
    server.send(HANDSHAKE, NOW).unwrap();
    assert_eq!(kind(server.next(NOW)), Ok(Some(packet_type::INVOKE)));
    assert_eq!(kind(server.next(NOW)), Ok(None));
    // Nonce and Handshake in one output: the first goes clear, the second not.
    assert_eq!(server.take_output(), down);
}

/// And a client whose Nonce was not taken out before its Handshake is sent.
#[test]
fn a_client_that_writes_all_at_once() {
    let [up, down] = wires();
    let mut client = pair::session(Side::Client, Cipher::CipherOnly);
    let nonce = ToSend::Nonce {
        random: random(Side::Client),
    };
    client.send(nonce, NOW).unwrap();
    client.feed(&down);
    // Nonce alone: the Handshake behind it waits for ours.
    assert_eq!(all(&mut client).unwrap().len(), 1);
    client.send(HANDSHAKE, NOW).unwrap();
    let heard = all(&mut client).unwrap();
    assert_eq!(heard[0].0, packet_type::HANDSHAKE);
    let handshaken = client.take_output();
    assert_eq!(handshaken, up[..handshaken.len()]);
    client
        .send(ToSend::Message(request(b"request")), NOW)
        .unwrap();
    assert_eq!(client.take_output(), up[handshaken.len()..]);
}

/// On a link that goes clear nothing behind a Nonce is deciphered.
#[test]
fn clear_bytes_behind_a_nonce() {
    let mut pair = Pair::new(Cipher::Either, Cipher::ClearOnly);
    pair.open(&mut |rest| rest).unwrap();
    let mut server = pair::session(Side::Server, Cipher::ClearOnly);
    server.feed(&pair.wire[0]);
    for (side, expected) in SIDES
        .into_iter()
        .zip([packet_type::NONCE, packet_type::HANDSHAKE])
    {
        let heard = all(&mut server).unwrap();
        assert_eq!(heard.len(), 1, "{side:?}");
        assert_eq!(heard[0].0, expected);
        let random = random(Side::Server);
        let next = match expected {
            packet_type::NONCE => ToSend::Nonce { random },
            _ => HANDSHAKE,
        };
        server.send(next, NOW).unwrap();
    }
    assert!(server.is_open() && !server.is_ciphered());
}

/// What was sent before a fault of the peer and not taken out goes nowhere: it
/// cannot be flushed any more. A clear link hands it out.
#[test]
fn after_a_fault_nothing_unflushed_leaves_a_ciphered_link() {
    for (cipher, expected) in [(Cipher::CipherOnly, 0), (Cipher::ClearOnly, 24)] {
        let mut pair = Pair::new(cipher, cipher);
        pair.open(&mut |rest| rest).unwrap();
        pair.server.send(ToSend::Ping { id: 1 }, NOW).unwrap();
        // A block of zeros is no packet, deciphered or not.
        pair.server.feed(&[0; 64]);
        assert!(pair.server.next(NOW).is_err());
        assert!(pair.server.is_closed());
        assert_eq!(pair.server.take_output().len(), expected);
        assert_eq!(pair.server.take_output(), []);
    }
}
