//! A derivation, and its init message part by part.

use crate::SIDES;
use relay::keys::{Derivation, End, Ends};
use relay::Side;

/// Every field has a value that no other has.
pub fn derivation(version: u8, sender: Side) -> Derivation {
    let client = End {
        random: *b"abcdefghijklmnop",
        time: 0x0102_0304,
        ip: 0x0506_0708,
        port: 0x090a,
    };
    let server = End {
        random: *b"ABCDEFGHIJKLMNOP",
        time: 0x1314_1516,
        ip: 0x1718_191a,
        port: 0x1b1c,
    };
    Derivation {
        version,
        sender,
        ends: Ends { client, server },
        shared: [0x55; 32],
    }
}

/// The init message by the protocol document's list of its parts.
pub fn message(what: &Derivation, key: &[u8]) -> Vec<u8> {
    let Ends { client, server } = what.ends;
    let old = |number: u32| if what.version == 0 { number } else { 0 };
    let port = |end: End| old(end.port.into()).to_le_bytes()[..2].to_vec();
    let server_ip = if what.version == 0 {
        server.ip
    } else {
        server.time
    };
    let direction = match what.sender {
        Side::Client => b"CLIENT",
        Side::Server => b"SERVER",
    };
    let shared = if what.version == 2 { 32 } else { 0 };
    let parts = [
        &server.random[..],
        &client.random,
        &client.time.to_le_bytes(),
        &server_ip.to_le_bytes(),
        &port(client),
        direction,
        &old(client.ip).to_le_bytes(),
        &port(server),
        key,
        &server.random,
        &client.random,
        &what.shared[..shared],
    ];
    parts.concat()
}

/// All three versions, in both directions.
pub fn all() -> impl Iterator<Item = Derivation> {
    (0..=2).flat_map(|version| SIDES.map(|sender| derivation(version, sender)))
}
