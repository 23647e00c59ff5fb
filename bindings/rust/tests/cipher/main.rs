//! The cipher of a link: the standard's vectors, two sessions against each other
//! in every setting and cutting, a peer written by hand for the old versions, what
//! cards are asked for, and what becomes of other keys and of changed bytes.

mod by_hand;
mod cards;
mod cutting;
mod hostile;
mod letting_go;
mod lumps;
mod other_keys;
mod pair;
#[path = "../common/random.rs"]
mod random;
mod settings;
mod tables;
mod vectors;

use random::Random;
use relay::{Cipher, Moment, Side};

const SIDES: [Side; 2] = [Side::Client, Side::Server];
const CIPHERS: [Cipher; 3] = [Cipher::ClearOnly, Cipher::CipherOnly, Cipher::Either];
const NOW: Moment = Moment {
    time: 1_700_000_000,
};
/// Its first four bytes are the KeyID.
const KEY: [u8; 40] = *b"KeyID and as many bytes more as it takes";
