//! What stands between the second program's link and the wire at an end that may
//! cipher. That link knows clear Nonces only: they are changed on their way, with
//! the checksum made right again, and behind them all goes through the cipher if
//! the Nonces chose it. The keys are by the second program's own derivation.

use super::aes::Aes;
use super::BLOCK;
use reference::keys::{derive, Peer, Request};
use reference::message::Side;
use relay::checksum::crc32;
use relay::{Address, Addresses, Card, Cipher};

pub const CIPHERS: [Cipher; 3] = [Cipher::ClearOnly, Cipher::CipherOnly, Cipher::Either];

/// The key of the relays and of the other ends; its first four bytes are the KeyID.
pub const KEY: [u8; 40] = *b"KeyID and as many bytes more as it takes";

/// How an end that may cipher is set.
#[derive(Clone)]
pub struct Secrets {
    pub cipher: Cipher,
    pub key: Vec<u8>,
    /// What its Nonce says whatever was offered, for ends that are wrong.
    pub says: Option<u8>,
    /// Of both ends of its connection.
    pub addresses: Addresses,
}

impl Secrets {
    pub fn new(cipher: Cipher, key: &[u8]) -> Secrets {
        Secrets {
            cipher,
            key: key.to_vec(),
            says: None,
            addresses: Addresses::default(),
        }
    }
}

pub struct Tunnel {
    side: Side,
    secrets: Secrets,
    card: Box<dyn Card + Send>,
    /// The bodies of both Nonces, as they went over the wire.
    ours: Vec<u8>,
    theirs: Vec<u8>,
    /// What comes, and what goes.
    keys: Option<(Aes, Aes)>,
}

/// Where a Nonce's body has its fields.
const KEY_ID: std::ops::Range<usize> = 0..4;
const ENCRYPTION: usize = 4;
const VERSION: usize = 5;
const TIME: usize = 8;
const RANDOM: usize = 12;
const POINT: std::ops::Range<usize> = 28..60;

/// Around a packet's body.
const FRONT: usize = 12;
const SUM: usize = 4;

/// The body of a packet, for changes: its checksum is made right afterwards.
fn change(packet: &mut [u8], change: impl FnOnce(&mut [u8])) {
    let end = packet.len() - SUM;
    change(&mut packet[FRONT..end]);
    let sum = crc32(&packet[..end]);
    packet[end..].copy_from_slice(&sum.to_le_bytes());
}

impl Tunnel {
    pub fn new(side: Side, secrets: Secrets, card: Box<dyn Card + Send>) -> Tunnel {
        Tunnel {
            side,
            secrets,
            card,
            ours: vec![],
            theirs: vec![],
            keys: None,
        }
    }

    pub fn set_addresses(&mut self, addresses: Addresses) {
        self.secrets.addresses = addresses;
    }

    /// What a Nonce of ours says, and none if it would be refused (9).
    fn says(&self) -> Option<u8> {
        let offered = self.theirs.get(ENCRYPTION);
        let by_rule = match (self.secrets.cipher, offered) {
            (Cipher::ClearOnly, None) => Some(0),
            (Cipher::CipherOnly, None) => Some(1),
            (Cipher::Either, None) => Some(2),
            (Cipher::ClearOnly, Some(1)) | (Cipher::CipherOnly, Some(0)) => None,
            (Cipher::ClearOnly, _) | (Cipher::Either, Some(0)) => Some(0),
            (_, Some(_)) => Some(1),
        };
        self.secrets.says.or(by_rule)
    }

    /// Our Nonce as it goes over the wire, made of the second program's.
    pub fn send_nonce(&mut self, packet: &mut [u8]) -> Result<(), String> {
        let says = self.says().ok_or("refuses their encryption")?;
        let (key, point) = (&self.secrets.key, self.card.point());
        change(packet, |body| {
            body[ENCRYPTION] = says;
            if says != 0 {
                body[KEY_ID].copy_from_slice(&key[KEY_ID]);
                body[POINT].copy_from_slice(&point);
            }
        });
        self.ours = packet[FRONT..packet.len() - SUM].to_vec();
        self.agree()
    }

    /// Takes their Nonce, and makes of it one that the second program knows.
    pub fn take_nonce(&mut self, packet: &mut [u8]) -> Result<(), String> {
        self.theirs = packet[FRONT..packet.len() - SUM].to_vec();
        change(packet, |body| {
            body[KEY_ID].fill(0);
            body[ENCRYPTION] = 0;
        });
        self.agree()
    }

    /// Whether the cipher is chosen; by the server's Nonce, or by ours to come.
    pub fn is_ciphered(&self) -> bool {
        match self.side {
            Side::Server => self.says() == Some(1),
            Side::Client => self.theirs.get(ENCRYPTION) == Some(&1),
        }
    }

    /// Once both Nonces are there.
    fn agree(&mut self) -> Result<(), String> {
        if self.ours.is_empty() || self.theirs.is_empty() || !self.is_ciphered() {
            return Ok(());
        }
        if self.theirs[KEY_ID] != self.secrets.key[KEY_ID] {
            return match self.secrets.says {
                // What such an end does then is no matter.
                Some(_) => Ok(()),
                None => Err("refuses their KeyID".to_string()),
            };
        }
        let mut theirs = [0; 32];
        if let Some(point) = self.theirs.get(POINT) {
            theirs.copy_from_slice(point);
        }
        let shared = match self.server_nonce()[VERSION] {
            2 => self.card.shared(&theirs).ok_or("refuses their point")?,
            _ => [0; 32],
        };
        let (own, other) = match self.side {
            Side::Client => (Side::Client, Side::Server),
            Side::Server => (Side::Server, Side::Client),
        };
        let incoming = self.aes(other, shared, false);
        self.keys = Some((incoming, self.aes(own, shared, true)));
        Ok(())
    }

    fn server_nonce(&self) -> &[u8] {
        match self.side {
            Side::Client => &self.theirs,
            Side::Server => &self.ours,
        }
    }

    /// For what one side sends.
    fn aes(&self, sender: Side, shared: [u8; 32], enciphers: bool) -> Aes {
        let own = peer(&self.ours, self.secrets.addresses.own);
        let other = peer(&self.theirs, self.secrets.addresses.peer);
        let (client, server) = match self.side {
            Side::Client => (own, other),
            Side::Server => (other, own),
        };
        let request = Request {
            version: self.server_nonce()[VERSION],
            sender,
            client,
            server,
            key: &self.secrets.key,
            shared,
        };
        let keys = derive(&request, &mut [0; 5000]).expect("a derivation");
        Aes::new(&keys.key, &keys.vector, enciphers)
    }

    /// Moves from the wire what can be made clear.
    pub fn open(&mut self, wire: &mut Vec<u8>, input: &mut Vec<u8>) {
        let size = match (&self.keys, self.is_ciphered()) {
            (Some(_), _) => wire.len() / BLOCK * BLOCK,
            (None, true) => 0,
            (None, false) => wire.len(),
        };
        let mut clear: Vec<u8> = wire.drain(..size).collect();
        if let Some((incoming, _)) = &mut self.keys {
            incoming.apply(&mut clear);
        }
        input.extend(clear);
    }

    /// Of the output, what goes over the wire now: whole blocks. The first bytes
    /// are our Nonce, if it has not gone yet.
    pub fn close(&mut self, output: &mut Vec<u8>, nonce: usize) -> Vec<u8> {
        let Some((_, outgoing)) = &mut self.keys else {
            return std::mem::take(output);
        };
        let size = nonce + (output.len() - nonce) / BLOCK * BLOCK;
        let mut wire: Vec<u8> = output.drain(..size).collect();
        outgoing.apply(&mut wire[nonce..]);
        wire
    }
}

fn peer(nonce: &[u8], address: Address) -> Peer {
    let mut time = [0; 4];
    time.copy_from_slice(&nonce[TIME..TIME + 4]);
    let mut random = [0; 16];
    random.copy_from_slice(&nonce[RANDOM..RANDOM + 16]);
    Peer {
        random,
        time: u32::from_le_bytes(time),
        ip: address.ip,
        port: address.port,
    }
}
