//! Document 02, A8: links that are set up with a key. A link keeps the key's
//! KeyID alone; its driver derives with the key itself, and ciphers.

use super::{Link, Settings};
use crate::keys::LONGEST_KEY;
use crate::refusal::Refusal;

const SHORTEST_KEY: usize = 32;

/// Its first four bytes, by the protocol document; a key that a link takes has
/// them, and four zeros are forbidden.
fn key_id(key: &[u8]) -> Result<[u8; 4], Refusal> {
    if key.len() < SHORTEST_KEY || key.len() > LONGEST_KEY {
        return Err(Refusal::BadKey);
    }
    let key_id: [u8; 4] = key[..4].try_into().expect("four bytes");
    if key_id == [0; 4] {
        return Err(Refusal::BadKey);
    }
    Ok(key_id)
}

impl Link {
    /// A link with all its settings and a key. 36 for a key that a link does
    /// not take, whatever it is set to, then 30 if its lowest version is above
    /// 2.
    pub fn set_up_with_key(settings: Settings, key: &[u8]) -> Result<Link, Refusal> {
        let key_id = key_id(key)?;
        settings.judge()?;
        Ok(Link {
            key_id,
            ..Link::fresh(settings)
        })
    }
}
