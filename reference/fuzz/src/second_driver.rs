//! A driver around the second program's link: it derives the keys, ciphers and
//! deciphers, with nothing of ours.

use crate::draw;
use crate::pairs::SetUp;
use reference::cipher::{decipher, encipher, BLOCK};
use reference::keys::{derive, Keys, Peer, Request};
use reference::link::{nonce_fields, packet, Cipher, Link, Outgoing, Received, State};
use reference::message::Side;
use std::mem::take;

/// More than any packet that is drawn.
const ROOM: usize = 700;

/// A packet's type and body.
pub type Heard = (u32, Vec<u8>);

/// What a card and a connection give: our point, and IP and port of client and
/// server.
#[derive(Clone, Copy)]
pub struct Surroundings {
    pub point: [u8; 32],
    pub addresses: [(u32, u16); 2],
}

/// What our card makes of the other side's point; theirs makes the same of ours.
pub fn shared(ours: &[u8; 32], theirs: &[u8]) -> [u8; 32] {
    std::array::from_fn(|i| ours[i] ^ theirs[i])
}

pub struct Driver {
    link: Link,
    set_up: SetUp,
    around: Surroundings,
    /// The bodies of ours and theirs.
    nonces: [Option<Vec<u8>>; 2],
    /// For what goes out and for what comes in.
    keys: Option<[Keys; 2]>,
    ciphered: Vec<u8>,
    clear: Vec<u8>,
    /// A Nonce, which goes out as it is, and what is to be ciphered.
    nonce: Vec<u8>,
    packets: Vec<u8>,
}

impl Driver {
    pub fn new(set_up: SetUp, around: Surroundings) -> Driver {
        let SetUp { settings, key, .. } = set_up;
        let link = match key {
            Some(key) if settings.cipher != Cipher::ClearOnly => {
                Link::set_up_with_key(settings, &key)
            }
            _ => Link::set_up(settings),
        };
        Driver {
            link: link.expect("a link"),
            set_up,
            around,
            nonces: [None, None],
            keys: None,
            ciphered: Vec::new(),
            clear: Vec::new(),
            nonce: Vec::new(),
            packets: Vec::new(),
        }
    }

    pub fn state(&self) -> State {
        self.link.state()
    }

    pub fn send(&mut self, what: &Outgoing) -> Result<(), u8> {
        let mut bytes = vec![0; ROOM];
        let sent = self.link.send(what, &mut bytes);
        bytes.truncate(sent.map_err(|refusal| refusal.number())?);
        if let Outgoing::Nonce(..) = what {
            self.nonces[0] = Some(bytes[12..bytes.len() - 4].to_vec());
            self.nonce.extend(bytes);
            self.agree();
        } else {
            self.packets.extend(bytes);
        }
        Ok(())
    }

    /// All that was sent, flushed, and enciphered if the link is.
    pub fn take_output(&mut self) -> Vec<u8> {
        let mut words = [0; BLOCK];
        let flushed = self.link.flush(&mut words).unwrap_or(0);
        let mut packets = take(&mut self.packets);
        packets.extend(&words[..flushed]);
        if let Some([out, _]) = &mut self.keys {
            encipher(&out.key, &mut out.vector, &mut packets).expect("whole blocks");
        }
        [take(&mut self.nonce), packets].concat()
    }

    pub fn feed(&mut self, bytes: &[u8]) {
        if self.state().ciphered {
            self.ciphered.extend(bytes);
            self.decipher();
        } else {
            self.clear.extend(bytes);
        }
    }

    pub fn next(&mut self, time: u32) -> Result<Option<Heard>, u8> {
        let received = self.link.receive(&self.clear, time);
        let Received::Packet {
            packet_type,
            consumed,
            body,
            ..
        } = received.map_err(|refusal| refusal.number())?
        else {
            return Ok(None);
        };
        let body = body.of(&self.clear).to_vec();
        self.clear.drain(..consumed);
        if packet_type == packet::NONCE {
            self.nonces[1] = Some(body.clone());
            if self.state().ciphered {
                self.ciphered = take(&mut self.clear);
            }
            self.agree();
        }
        Ok(Some((packet_type, body)))
    }

    fn decipher(&mut self) {
        if let Some([_, into]) = &mut self.keys {
            let whole = self.ciphered.len() - self.ciphered.len() % BLOCK;
            let mut blocks: Vec<u8> = self.ciphered.drain(..whole).collect();
            decipher(&into.key, &mut into.vector, &mut blocks).expect("whole blocks");
            self.clear.extend(blocks);
        }
    }

    /// Once both Nonces went over.
    fn agree(&mut self) {
        let ([Some(ours), Some(theirs)], true) = (&self.nonces, self.state().ciphered) else {
            return;
        };
        let side = self.set_up.settings.side;
        let [out, into] =
            [side, draw::other(side)].map(|sender| self.derived(sender, ours, theirs));
        self.keys = Some([out, into]);
        self.decipher();
    }

    fn derived(&self, sender: Side, ours: &[u8], theirs: &[u8]) -> Keys {
        let [client, server] = match self.set_up.settings.side {
            Side::Client => [ours, theirs],
            Side::Server => [theirs, ours],
        };
        let version = nonce_fields(server).expect("a Nonce").version;
        let shared = match version {
            2 => shared(&self.around.point, &theirs[28..60]),
            _ => [0; 32],
        };
        let [client_at, server_at] = self.around.addresses;
        let request = Request {
            version,
            sender,
            client: peer(client, client_at),
            server: peer(server, server_at),
            key: &self.set_up.key.expect("a key"),
            shared,
        };
        derive(&request, &mut [0; 150]).expect("keys")
    }
}

fn peer(nonce: &[u8], (ip, port): (u32, u16)) -> Peer {
    let fields = nonce_fields(nonce).expect("a Nonce");
    Peer {
        random: fields.random.of(nonce).try_into().expect("16 bytes"),
        time: fields.time,
        ip,
        port,
    }
}
