//! Document 02, A8: a direction's AES key and starting vector, from the crypto
//! init message of the protocol document.

pub mod printed;
#[cfg(test)]
mod tests;

use crate::hash::{md5, sha1};
use crate::message::Side;
use crate::refusal::Refusal;

/// In bytes. Shorter ones than a link takes will do: those of the printed
/// vectors have four.
pub const LONGEST_KEY: usize = 4096;

const NEWEST_VERSION: u8 = 2;

/// One end: what its Nonce and its connection say.
#[derive(Clone, Copy, Debug, PartialEq, Eq)]
pub struct Peer {
    pub random: [u8; 16],
    pub time: u32,
    pub ip: u32,
    pub port: u16,
}

#[derive(Clone, Copy, Debug, PartialEq, Eq)]
pub struct Request<'a> {
    pub version: u8,
    /// Who sends in the direction whose keys these are.
    pub sender: Side,
    pub client: Peer,
    pub server: Peer,
    pub key: &'a [u8],
    /// The Diffie-Hellman secret that the card gives.
    pub shared: [u8; 32],
}

#[derive(Clone, Copy, Debug, PartialEq, Eq)]
pub struct Keys {
    /// How many bytes the init message has.
    pub size: usize,
    pub key: [u8; 32],
    pub vector: [u8; 16],
}

/// The init message of version 0, 1 or 2; others have none. Version 1 put the
/// server's time in place of its IP and zeros in place of the client's IP and
/// of both ports; version 2 brought the shared bytes.
pub fn init_message(request: &Request) -> Vec<u8> {
    assert!(request.version <= NEWEST_VERSION);
    let (client, server) = (&request.client, &request.server);
    let (server_ip, client_port, client_ip, server_port) = match request.version {
        0 => (server.ip, client.port, client.ip, server.port),
        _ => (server.time, 0, 0, 0),
    };
    let nonces = [server.random, client.random].concat();
    let mut message = nonces.clone();
    message.extend(client.time.to_le_bytes());
    message.extend(server_ip.to_le_bytes());
    message.extend(client_port.to_le_bytes());
    message.extend(direction(request.sender));
    message.extend(client_ip.to_le_bytes());
    message.extend(server_port.to_le_bytes());
    message.extend(request.key);
    message.extend(nonces);
    if request.version == 2 {
        message.extend(request.shared);
    }
    message
}

fn direction(sender: Side) -> &'static [u8; 6] {
    match sender {
        Side::Client => b"CLIENT",
        Side::Server => b"SERVER",
    }
}

/// Writes the message at the front of `buffer`, whose other bytes stay. In
/// order: 36, 30, 16; none writes anything.
pub fn derive(request: &Request, buffer: &mut [u8]) -> Result<Keys, Refusal> {
    if request.key.len() > LONGEST_KEY {
        return Err(Refusal::BadKey);
    }
    if request.version > NEWEST_VERSION {
        return Err(Refusal::OutOfRange);
    }
    let message = init_message(request);
    buffer
        .get_mut(..message.len())
        .ok_or(Refusal::BufferTooSmall)?
        .copy_from_slice(&message);
    Ok(of_message(&message))
}

fn of_message(message: &[u8]) -> Keys {
    let mut key = [0; 32];
    key[..12].copy_from_slice(&md5(&message[1..])[..12]);
    key[12..].copy_from_slice(&sha1(message));
    Keys {
        size: message.len(),
        key,
        vector: md5(&message[2..]),
    }
}
