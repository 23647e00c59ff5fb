//! Where the Diffie-Hellman point and the shared bytes of a ciphered link come
//! from. Document 02 leaves them to the customer's card, so they are the program's
//! choice and never a silent one.

#[cfg(feature = "openssl")]
mod x25519;

#[cfg(feature = "openssl")]
pub use x25519::X25519Card;

use relay::Card;
use std::io;

/// The cards that there are, by their words on the command line.
#[derive(Clone, Copy, Debug, PartialEq, Eq)]
pub enum CardKind {
    /// No secret: for tests alone.
    StandIn,
    /// X25519 (RFC 7748) by OpenSSL.
    #[cfg(feature = "openssl")]
    X25519,
}

impl CardKind {
    /// By its word; what there is, if it is not that.
    pub fn of(word: &str) -> Result<CardKind, &'static str> {
        match word {
            "stand-in" => Ok(CardKind::StandIn),
            #[cfg(feature = "openssl")]
            "x25519" => Ok(CardKind::X25519),
            #[cfg(feature = "openssl")]
            _ => Err("the card is stand-in or x25519"),
            #[cfg(not(feature = "openssl"))]
            _ => Err("the card is stand-in; x25519 is there if the feature openssl is built in"),
        }
    }

    /// A card for one connection, with a key pair of its own; `random` is for the
    /// stand-in.
    pub fn card(self, random: [u8; 32]) -> io::Result<Box<dyn Card + Send>> {
        match self {
            CardKind::StandIn => Ok(Box::new(StandInCard { point: random })),
            #[cfg(feature = "openssl")]
            CardKind::X25519 => Ok(Box::new(X25519Card::new()?)),
        }
    }
}

/// In a card's place where nothing is to be kept secret: anyone who sees both
/// points knows the shared bytes.
pub struct StandInCard {
    pub point: [u8; 32],
}

impl Card for StandInCard {
    fn point(&mut self) -> [u8; 32] {
        self.point
    }

    fn shared(&mut self, theirs: &[u8; 32]) -> Option<[u8; 32]> {
        let sum = |at: usize| self.point[at].wrapping_add(theirs[at]);
        Some(std::array::from_fn(sum))
    }
}
