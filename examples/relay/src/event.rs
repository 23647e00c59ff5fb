//! What the core is told, and what it wants done.

pub use relay::Peer;
use relay::{Card, NetPid};
use std::fmt;

/// The clocks when an event is handled.
#[derive(Clone, Copy, Debug, Default)]
pub struct Now {
    /// Seconds since 1970, for the links.
    pub seconds: u32,
    /// Milliseconds of a clock that does not go back, for the deadlines of requests.
    pub ms: u64,
}

/// What a new connection needs for its opening.
pub struct Opening {
    /// For our Nonce.
    pub random: [u8; 16],
    /// For our Handshake: who we are, and who they are.
    pub own: NetPid,
    pub peer: NetPid,
    /// For a link that may cipher: with a key pair of this connection alone.
    pub card: Option<Box<dyn Card + Send>>,
}

pub enum Event<'a> {
    /// A connection stands; no byte has gone over it.
    Connected(Peer, Opening),
    Bytes(Peer, &'a [u8]),
    /// A connection is gone.
    Closed(Peer),
    /// The time for a connection's opening is over.
    OpeningOver(Peer),
    /// A connection is given up: more waits for its peer than may wait.
    Slow(Peer),
    /// A connection was not taken: no link is free, or it could not be set up.
    TurnedAway,
    /// One interval of the keep-alive is over.
    Tick,
    /// It is time to look for requests whose deadline has come.
    RunOut,
}

#[derive(Debug, PartialEq, Eq)]
pub enum Action {
    /// Packets, as they go over the connection: on a padded link with the words
    /// of a flush behind them, and on a ciphered one enciphered.
    Send(Peer, Vec<u8>),
    /// Everything sent before goes out, if the peer takes it in time, then the
    /// connection ends. No event `Closed` need follow.
    Close(Peer),
    /// To be printed.
    Warn(Peer, Warning),
}

/// What an operator has to know, and cannot guess from a connection that ends.
#[derive(Clone, Copy, Debug, PartialEq, Eq)]
pub enum Warning {
    OtherKeys,
    BadPoint,
}

impl fmt::Display for Warning {
    fn fmt(&self, f: &mut fmt::Formatter) -> fmt::Result {
        f.write_str(match self {
            Warning::OtherKeys => {
                "its Handshake cannot be read: most likely the two ends have keys that begin \
                 with the same four bytes and differ behind them"
            }
            Warning::BadPoint => "its Nonce has a point that shares no secret",
        })
    }
}
