//! Sockets and threads around the core. One thread reads each connection, one
//! writes it, and one thread owns the core and the clock, so that events have
//! one order. The core's thread never waits for a peer: what it sends is queued,
//! and one more thread prints its warnings.

mod beat;
mod connect;
mod connection;
mod printer;
mod serve;
mod server;
mod stream;

pub use serve::{serve, Options, Publisher};

use crate::event::Peer;
use std::net::TcpStream;
use std::sync::Arc;

/// What the core's thread is told by the others. A connection's serial number
/// tells it from an earlier one of the same peer, whose last words may be late.
enum Input {
    Accepted(TcpStream),
    Connected(u8, u64, Arc<TcpStream>),
    Bytes(Peer, u64, Vec<u8>),
    /// Its reader has seen the end.
    Closed(Peer, u64),
    /// Its writer has ended, and holds nothing any more.
    Written(Peer, u64),
    Report,
}
