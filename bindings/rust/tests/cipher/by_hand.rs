//! A peer whose packets are written and read by hand, so that it may be of any
//! version: its keys and its cipher are the library's, one call at a time.

use crate::pair::address;
use crate::KEY;
use relay::cipher::{Decipher, Encipher};
use relay::keys::{derive, Derivation, End, Ends, NonceFields, INIT_MESSAGE_MOST};
use relay::{checksum, packet_type, Address, Side};

const RANDOM: [u8; 16] = *b"random by a hand";
const POINT: [u8; 32] = [9; 32];

pub struct ByHand {
    /// Of the session at the other end.
    other: Side,
    version: u8,
    number: u32,
    own: Vec<u8>,
    theirs: Vec<u8>,
    cipher: Option<(Encipher, Decipher)>,
}

impl ByHand {
    /// The peer of a session that is on this side.
    pub fn new(other: Side, version: u8) -> ByHand {
        ByHand {
            other,
            version,
            number: u32::MAX - 1,
            own: vec![],
            theirs: vec![],
            cipher: None,
        }
    }

    /// A packet with the zeros and words of a flush, if there is a cipher.
    fn packet(&mut self, kind: u32, body: &[u8]) -> Vec<u8> {
        let length = body.len() as u32 + 16;
        let front = [length, self.number, kind].map(u32::to_le_bytes).concat();
        self.number = self.number.wrapping_add(1);
        let mut packet = [&front, body].concat();
        // Both sides allow CRC-32C, but the Handshakes here do not offer it.
        packet.extend(checksum::crc32(&packet).to_le_bytes());
        if let Some((encipher, _)) = &mut self.cipher {
            packet.resize(packet.len().next_multiple_of(4), 0);
            while packet.len() % 16 != 0 {
                packet.extend([4, 0, 0, 0]);
            }
            encipher.encipher(&mut packet).unwrap();
        }
        packet
    }

    /// Under version 2 without a point.
    pub fn nonce(&mut self, encryption: u8) -> Vec<u8> {
        let mut body = KEY[..4].to_vec();
        body.extend([encryption, self.version, 0, 0]);
        body.extend(crate::NOW.time.to_le_bytes());
        body.extend(RANDOM);
        if self.version >= 2 {
            body.extend(POINT);
        }
        self.own = body.clone();
        self.packet(packet_type::NONCE, &body)
    }

    pub fn take_nonce(&mut self, packet: &[u8]) {
        self.theirs = packet[12..packet.len() - 4].to_vec();
    }

    pub fn handshake(&mut self) -> Vec<u8> {
        self.packet(packet_type::HANDSHAKE, &[0; 28])
    }

    pub fn ping(&mut self, id: u8) -> Vec<u8> {
        self.packet(packet_type::PING, &[id; 8])
    }

    /// The keys of both directions.
    pub fn derive(&mut self) {
        let (own, other) = match self.other {
            Side::Client => (Side::Server, Side::Client),
            Side::Server => (Side::Client, Side::Server),
        };
        let mut buf = [0; INIT_MESSAGE_MOST];
        let keys = derive(&mut buf, &self.derivation(own), &KEY).unwrap();
        let encipher = Encipher::new(&keys);
        let keys = derive(&mut buf, &self.derivation(other), &KEY).unwrap();
        self.cipher = Some((encipher, Decipher::new(&keys)));
    }

    /// For what one side sends.
    fn derivation(&self, sender: Side) -> Derivation {
        let read = |body| NonceFields::read(body).unwrap();
        let (own, theirs) = (read(&self.own), read(&self.theirs));
        let end = |nonce: NonceFields, address: Address| End {
            random: *nonce.random,
            time: nonce.time,
            ip: address.ip,
            port: address.port,
        };
        let (client, server) = match self.other {
            Side::Client => (theirs, own),
            Side::Server => (own, theirs),
        };
        assert_eq!(server.version, self.version);
        // As the card of these tests has it.
        let shared = theirs.point.map_or([0; 32], |theirs| {
            std::array::from_fn(|at| theirs[at].wrapping_add(POINT[at]))
        });
        Derivation {
            version: server.version,
            sender,
            ends: Ends {
                client: end(client, address(Side::Client)),
                server: end(server, address(Side::Server)),
            },
            shared,
        }
    }

    /// The packets of an output: types and bodies.
    pub fn read(&mut self, output: &[u8]) -> Vec<(u32, Vec<u8>)> {
        let mut bytes = output.to_vec();
        if let Some((_, decipher)) = &mut self.cipher {
            decipher.decipher(&mut bytes).unwrap();
        }
        let mut rest = &bytes[..];
        let mut packets = Vec::new();
        while let Some(length) = rest.first_chunk() {
            let length = u32::from_le_bytes(*length) as usize;
            if length == 4 {
                rest = &rest[4..];
                continue;
            }
            let kind = u32::from_le_bytes(*rest[8..].first_chunk().unwrap());
            packets.push((kind, rest[12..length - 4].to_vec()));
            let padded = match self.cipher {
                Some(_) => length.next_multiple_of(4),
                None => length,
            };
            rest = &rest[padded..];
        }
        packets
    }
}
