//! A link's settings and state in one form for both programs.

use crate::both::our_side;
use reference::link::{Cipher, Settings, State};
use reference::message::Side;
use relay::raw;

/// The same settings for our library.
pub fn our_settings(settings: Settings) -> relay::Settings {
    relay::Settings::new(our_side(settings.side), settings.crc32c_allowed)
        .with_lowest(settings.lowest_version)
        .with_padded(settings.padded)
        .with_cipher(match settings.cipher {
            Cipher::ClearOnly => relay::Cipher::ClearOnly,
            Cipher::CipherOnly => relay::Cipher::CipherOnly,
            Cipher::Either => relay::Cipher::Either,
        })
}

/// The same as they cross the C interface, where `only` may be said of links
/// that go clear only.
pub fn raw_settings(settings: Settings, only: bool) -> raw::Settings {
    raw::Settings {
        server: settings.side == Side::Server,
        allows: settings.crc32c_allowed,
        lowest: settings.lowest_version,
        padded: settings.padded,
        cipher: settings.cipher != Cipher::ClearOnly,
        only: match settings.cipher {
            Cipher::ClearOnly => only,
            cipher => cipher == Cipher::CipherOnly,
        },
    }
}

fn settings(set: raw::Settings) -> Settings {
    let side = if set.server {
        Side::Server
    } else {
        Side::Client
    };
    Settings {
        lowest_version: set.lowest,
        padded: set.padded,
        cipher: match (set.cipher, set.only) {
            (false, _) => Cipher::ClearOnly,
            (true, true) => Cipher::CipherOnly,
            (true, false) => Cipher::Either,
        },
        ..Settings::new(side, set.allows)
    }
}

pub fn ours(link: &raw::Link) -> State {
    State {
        settings: settings(link.set),
        closed: link.closed,
        stage: link.stage,
        incoming: link.gets,
        outgoing: link.sends,
        crc32c: link.crc32c && link.stage >= 4,
        their_version: link.version,
        awaited: link.awaits.then_some(link.awaited),
        owed: link.owes.then_some(link.owed),
        since_handshake: u64::from(link.phase) * 4,
        key_id: link.keyid.to_le_bytes(),
        ciphered: link.ciphered,
    }
}

/// The second program counts all bytes since its Handshake, ours the words
/// modulo 4, and on padded and ciphered links only. A remainder that is no
/// whole word is a difference.
pub fn second(state: State) -> State {
    let padded = state.settings.padded || state.ciphered;
    let kept = if padded { 16 } else { 1 };
    State {
        since_handshake: state.since_handshake % kept,
        ..state
    }
}
