//! What the drivers of a ciphered link make of its Nonces: keys and vectors for
//! both directions, derived by both programs.

use crate::both::End;
use crate::ciphers::{Chain, Way};
use crate::compare::Difference;
use crate::counts::Counts;
use crate::draw;
use crate::keys;
use reference::generator::Generator;
use reference::keys::{Peer, Request};
use reference::link::nonce_fields;
use reference::message::Side;

/// All that the Nonces and connections of both ends say.
#[derive(Clone, Copy)]
pub struct Agreement {
    version: u8,
    client: Peer,
    server: Peer,
    shared: [u8; 32],
}

impl Agreement {
    /// Of the two Nonces as they arrived; both sides speak the server's version.
    pub fn new(g: &mut Generator, client: &[u8], server: &[u8]) -> Agreement {
        Agreement {
            version: nonce_fields(server).expect("a Nonce").version,
            client: peer(g, client),
            server: peer(g, server),
            shared: draw::array(g),
        }
    }

    /// What an end sends through, and what it hears through.
    pub fn chains(
        &self,
        end: &End,
        key: &[u8],
        counts: &mut Counts,
    ) -> Result<[Chain; 2], Difference> {
        Ok([
            self.chain(Way::There, end.side, key, counts)?,
            self.chain(Way::Back, draw::other(end.side), key, counts)?,
        ])
    }

    fn chain(
        &self,
        way: Way,
        sender: Side,
        key: &[u8],
        counts: &mut Counts,
    ) -> Result<Chain, Difference> {
        let request = Request {
            version: self.version,
            sender,
            client: self.client,
            server: self.server,
            key,
            shared: self.shared,
        };
        let keys = keys::derived(&request, counts)?;
        Ok(Chain::new(way, keys.key, keys.vector))
    }
}

fn peer(g: &mut Generator, nonce: &[u8]) -> Peer {
    let fields = nonce_fields(nonce).expect("a Nonce");
    Peer {
        random: fields.random.of(nonce).try_into().expect("16 bytes"),
        time: fields.time,
        ip: g.draw() as u32,
        port: g.draw() as u16,
    }
}
