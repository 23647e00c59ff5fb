//! What a driver lends to its links: random bytes, a card and the time.

use relay::Card;
use relay_example::card::CardKind;
use std::fs::File;
use std::io::Read;
use std::time::{SystemTime, UNIX_EPOCH};

/// The card of the relays and of the other ends, by its word.
pub const CARD: &str = if cfg!(feature = "openssl") {
    "x25519"
} else {
    "stand-in"
};

pub fn random<const N: usize>() -> [u8; N] {
    let mut random = [0; N];
    let source = File::open("/dev/urandom").and_then(|mut file| file.read_exact(&mut random));
    source.expect("random bytes");
    random
}

pub fn card() -> Box<dyn Card + Send> {
    let kind = CardKind::of(CARD).expect("a card");
    kind.card(random()).expect("a card")
}

pub fn clock() -> u32 {
    let since = SystemTime::now().duration_since(UNIX_EPOCH);
    since.map_or(0, |duration| duration.as_secs() as u32)
}
