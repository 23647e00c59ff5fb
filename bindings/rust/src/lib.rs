//! The core of a relay for VK RPC over TCP, without sockets: the caller lends
//! bytes, time and randomness, and gets answers.
//!
//! The work is done by a library written in Rattle, where each function is
//! proved to meet its contract for every input. This crate declares its C
//! interface and wraps it, so that the compiler keeps what a C caller must keep:
//! slices that fit, a front number never taken for a publisher's, a link and a
//! table that only their own calls change. The types that matter are [`Link`],
//! [`Message`] and [`Table`], which decide nothing themselves and copy no payload.
//! [`keys`] and [`cipher`] have the parts of a ciphered link. A [`Session`] is a
//! link, clear or ciphered, that keeps its bytes and makes all calls in their order.
//!
//! ```
//! use relay::{Arrival, Link, Moment, Settings, Side, ToSend};
//!
//! let now = Moment { time: 1_700_000_000 };
//! let link = |side| Link::new(Settings::new(side, true));
//! let (mut client, mut server) = (link(Side::Client)?, link(Side::Server)?);
//! let mut buf = [0; 128];
//! let size = client.send(&mut buf, ToSend::Nonce { random: [7; 16] }, now)?;
//! assert_eq!(server.receive(&buf[..10], now), Arrival::Incomplete(2));
//! match server.receive(&buf[..size], now) {
//!     Arrival::Packet { consumed, body, .. } => assert_eq!((consumed, body.len()), (76, 60)),
//!     other => panic!("{other:?}"),
//! }
//! # Ok::<(), relay::Refusal>(())
//! ```

pub mod checksum;
pub mod cipher;
pub mod keys;
mod link;
mod message;
mod netpid;
mod numbers;
pub mod packet_type;
#[cfg(not(feature = "raw"))]
mod raw;
#[cfg(feature = "raw")]
pub mod raw;
mod refusal;
mod send;
mod session;
mod table;

pub use link::{clock_difference, Arrival, Cipher, Link, Moment, Settings, Side};
pub use message::{read_message, Answer, Invoke, Message};
pub use netpid::{net_pids, NetPid, NetPids};
pub use numbers::{FrontNumber, PublisherNumber};
pub use refusal::Refusal;
pub use send::ToSend;
pub use session::{Address, Addresses, Card, Fault, Packet, Session};
pub use table::{EndList, OtherEnds, Peer, Table, ALL_ENDS, LINKS, PUBLISHERS};
