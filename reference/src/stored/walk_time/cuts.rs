//! Records of kinds 6 and 7 cut at every length. Whole, or with zeros for what
//! is missing, each would give a line other than `no 35`.

use crate::clock::LARGEST_TIME;
use crate::event::Event;

pub const EVENTS: [Event; 2] = [
    Event::AskBy(30, 0x0102_0304_0506_0708, 7, LARGEST_TIME, u32::MAX),
    Event::RunOut(LARGEST_TIME),
];

/// The shortest is the kind alone, the longest lacks one byte.
pub fn records() -> impl Iterator<Item = Vec<u8>> + Clone {
    EVENTS.into_iter().flat_map(|event| {
        let mut whole = Vec::new();
        event.encode(&mut whole);
        (1..whole.len()).map(move |length| whole[..length].to_vec())
    })
}
