//! A relay that runs: front ends connect to it, it connects to eight
//! publishers, and it passes requests one way and answers the other.
//!
//! `Core` decides everything and touches no socket: events in, bytes out. All
//! rules of links, messages and the table are the library's (crate `relay`), and so
//! is the cipher; a `card` is the program's.
//! `network` moves the bytes, with threads and the standard library only.

pub mod arguments;
pub mod card;
mod connection;
pub mod core;
pub mod counts;
pub mod event;
mod forward;
mod keep_alive;
mod key_file;
pub mod network;
mod opening;
mod output;
mod run_out;
pub mod settings;
mod unreadable;
