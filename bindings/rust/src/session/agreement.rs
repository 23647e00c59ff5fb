//! From two Nonces to the keys of both directions.

use crate::cipher::{Decipher, Encipher};
use crate::keys::{
    clear, derive, Derivation, End, Ends, Key, Keys, NonceFields, INIT_MESSAGE_MOST,
};
use crate::{Side, ToSend};

/// The caller's part of the Diffie-Hellman exchange, with a key pair that is used
/// for one session only: else what is recorded today is read when the pair is
/// known some day. (The card of document 02, A8 and A9.)
pub trait Card {
    /// Our point, for our Nonce: the same at each call.
    fn point(&mut self) -> [u8; 32];

    /// The bytes that both sides share, by the point of the other side's Nonce;
    /// none if it is no point to share anything by. Asked once at most, and in
    /// version 2 only. A panic closes the session, like none.
    fn shared(&mut self, theirs: &[u8; 32]) -> Option<[u8; 32]>;
}

impl<C: Card + ?Sized> Card for Box<C> {
    fn point(&mut self) -> [u8; 32] {
        (**self).point()
    }

    fn shared(&mut self, theirs: &[u8; 32]) -> Option<[u8; 32]> {
        (**self).shared(theirs)
    }
}

/// One end of the connection: 1.2.3.4 is 0x01020304.
#[derive(Clone, Copy, Debug, Default, PartialEq, Eq)]
pub struct Address {
    pub ip: u32,
    pub port: u16,
}

/// Both ends of the connection. The keys of version 0 alone are made of them.
#[derive(Clone, Copy, Debug, Default, PartialEq, Eq)]
pub struct Addresses {
    pub own: Address,
    pub peer: Address,
}

/// What a derivation needs, as it comes. The key is cleared with it.
pub struct Agreement {
    side: Side,
    key: Key,
    card: Box<dyn Card + Send>,
    addresses: Addresses,
    ours: Option<Nonce>,
    theirs: Option<Nonce>,
}

/// The fields of a Nonce.
#[derive(Clone, Copy)]
struct Nonce {
    version: u8,
    time: u32,
    random: [u8; 16],
    point: Option<[u8; 32]>,
}

impl Nonce {
    fn of(body: &[u8]) -> Nonce {
        // What a link has sent or taken is read (theorems sent-nonce-back and
        // fields-handed-back).
        let fields = NonceFields::read(body).expect("a Nonce of a link");
        Nonce {
            version: fields.version,
            time: fields.time,
            random: *fields.random,
            point: fields.point.copied(),
        }
    }

    fn end(&self, address: Address) -> End {
        End {
            random: self.random,
            time: self.time,
            ip: address.ip,
            port: address.port,
        }
    }
}

impl Agreement {
    pub fn new(
        side: Side,
        key: &[u8],
        card: Box<dyn Card + Send>,
        addresses: Addresses,
    ) -> Agreement {
        Agreement {
            side,
            key: Key::new(key),
            card,
            addresses,
            ours: None,
            theirs: None,
        }
    }

    /// Our Nonce with the card's point. A server whose link goes clear needs none,
    /// and saves the card its work.
    pub fn with_point(&mut self, random: [u8; 16], is_ciphered: bool) -> ToSend<'static> {
        match self.side == Side::Client || is_ciphered {
            true => {
                let point = self.card.point();
                ToSend::NonceWithPoint { random, point }
            }
            false => ToSend::Nonce { random },
        }
    }

    /// By our Nonce's packet: a front of 12 bytes, and a checksum of 4.
    pub fn take_ours(&mut self, packet: &[u8]) {
        self.ours = Some(Nonce::of(&packet[12..packet.len() - 4]));
    }

    /// By the body of theirs.
    pub fn take_theirs(&mut self, body: &[u8]) {
        self.theirs = Some(Nonce::of(body));
    }

    pub fn has_both(&self) -> bool {
        self.ours.is_some() && self.theirs.is_some()
    }

    /// The keys for what we send and for what they send; none if the card
    /// refuses their point, or a Nonce is not there.
    pub fn derive(mut self) -> Option<(Encipher, Decipher)> {
        let (ours, theirs) = (self.ours?, self.theirs?);
        let mut what = self.what(&ours, &theirs);
        if what.version == 2 {
            // A Nonce of version 2 has a point.
            what.shared = self.card.shared(&theirs.point?)?;
        }
        let (own, other) = match self.side {
            Side::Client => (Side::Client, Side::Server),
            Side::Server => (Side::Server, Side::Client),
        };
        let encipher = self.of_sender(&mut what, own, Encipher::new);
        let decipher = self.of_sender(&mut what, other, Decipher::new);
        clear(&mut what.shared);
        Some((encipher, decipher))
    }

    /// Without shared bytes. Both sides speak the version of the server's Nonce.
    fn what(&self, ours: &Nonce, theirs: &Nonce) -> Derivation {
        let own = ours.end(self.addresses.own);
        let other = theirs.end(self.addresses.peer);
        let (version, client, server) = match self.side {
            Side::Client => (theirs.version, own, other),
            Side::Server => (ours.version, other, own),
        };
        Derivation {
            version,
            sender: Side::Client,
            ends: Ends { client, server },
            shared: [0; 32],
        }
    }

    /// What is made of the keys for one sender's packets.
    fn of_sender<T>(&self, what: &mut Derivation, sender: Side, make: fn(&Keys) -> T) -> T {
        what.sender = sender;
        let mut buf = [0; INIT_MESSAGE_MOST];
        // The link has taken the key (36), its version is the server's, which is
        // ours at most (30), and every message fits (16).
        let mut keys = derive(&mut buf, what, self.key.bytes()).expect("a link's derivation");
        let made = make(&keys);
        keys.clear();
        made
    }
}
