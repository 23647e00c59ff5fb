//! The settings of the relay's links, and the sessions that they make.

use relay::keys::Key;
use relay::{Address, Addresses, Card, NetPid, Refusal, Session, Settings, Side};
use std::sync::Arc;

/// Towards a front end, where nothing else is said.
pub const FRONT: Settings = Settings::new(Side::Server, true);

/// Towards a publisher, likewise.
pub const PUBLISHER: Settings = Settings::new(Side::Client, true);

/// How a link is set up. All connections over which it is opened share its key.
#[derive(Clone, Debug)]
pub struct LinkSettings {
    pub settings: Settings,
    /// Of a link that may cipher.
    pub key: Option<Arc<Key>>,
}

impl From<Settings> for LinkSettings {
    fn from(settings: Settings) -> LinkSettings {
        LinkSettings {
            settings,
            key: None,
        }
    }
}

impl LinkSettings {
    /// A session for a new connection. One that may cipher takes the card that was
    /// made for that connection alone.
    pub fn session(
        &self,
        card: Option<Box<dyn Card + Send>>,
        own: NetPid,
        peer: NetPid,
    ) -> Result<Session, Refusal> {
        match (&self.key, card) {
            (Some(key), Some(card)) => {
                let own = address(own);
                let peer = address(peer);
                Session::with_key(self.settings, key.bytes(), card, Addresses { own, peer })
            }
            // What may cipher and lacks something is refused here.
            _ => Session::new(self.settings),
        }
    }
}

fn address(pid: NetPid) -> Address {
    Address {
        ip: pid.ip,
        port: pid.port,
    }
}
