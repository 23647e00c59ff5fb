//! How a conversation begins: the two links of it. And set-ups within it that
//! are refused.

use super::{Talk, TIME};
use crate::link::{Cipher, Settings};
use crate::message::Side;
use crate::stored::link_cases::{NEW, SET_UP};
use crate::stored::link_settings;
use crate::stored::records::other;

/// A link's settings and its key; no bytes are none.
type Keyed<'a> = (Settings, &'a [u8]);

impl Talk {
    pub fn new(side: Side, (ours, theirs): (bool, bool)) -> Talk {
        let record = vec![NEW, (side == Side::Server).into(), ours.into()];
        let peer = Settings::new(other(side), theirs);
        Talk::begin(record, (Settings::new(side, ours), &[]), (peer, &[]))
    }

    /// Of two links with all their settings: ours, that is stored, and the
    /// peer's.
    pub fn set_up(ours: Settings, theirs: Settings) -> Talk {
        Talk::with_keys((ours, &[]), (theirs, &[]))
    }

    /// And their keys.
    pub fn with_keys(ours: Keyed, theirs: Keyed) -> Talk {
        let mut record = vec![SET_UP];
        link_settings::push(&mut record, ours.0, ours.1);
        Talk::begin(record, ours, theirs)
    }

    /// Ours is a clear link in whose record stands that it never goes clear,
    /// which has no meaning there.
    pub fn clear_with_only(ours: Keyed, theirs: Keyed) -> Talk {
        let mut record = vec![SET_UP];
        link_settings::push_with_only(&mut record, ours.0, true, ours.1);
        Talk::begin(record, ours, theirs)
    }

    fn begin(record: Vec<u8>, ours: Keyed, theirs: Keyed) -> Talk {
        let link = |(settings, key)| {
            link_settings::set_up(settings, key).expect("settings of a talk are sound")
        };
        Talk {
            side: ours.0.side,
            time: TIME,
            link: link(ours),
            peer: link(theirs),
            words: Vec::new(),
            opened: 0,
            point: b"",
            records: record,
        }
    }

    pub fn with_point(self, point: &'static [u8]) -> Talk {
        Talk { point, ..self }
    }

    /// A set-up that is refused: the link of this conversation stays the
    /// newest.
    pub fn refused_set_up(&mut self, settings: Settings) {
        self.refused_with_key(settings, &[]);
    }

    pub fn refused_with_key(&mut self, settings: Settings, key: &[u8]) {
        let only = settings.cipher == Cipher::CipherOnly;
        self.refused_with_only(settings, only, key);
    }

    pub fn refused_with_only(&mut self, settings: Settings, only: bool, key: &[u8]) {
        assert!(link_settings::set_up(settings, key).is_err());
        self.records.push(SET_UP);
        link_settings::push_with_only(&mut self.records, settings, only, key);
    }
}
