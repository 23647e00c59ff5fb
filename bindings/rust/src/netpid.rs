//! The processes that a Handshake names.

use crate::raw;

/// A process, as a Handshake names it.
#[repr(C)]
#[derive(Clone, Copy, Debug, Default, PartialEq, Eq)]
pub struct NetPid {
    pub ip: u32,
    pub port: u16,
    pub pid: u16,
    /// Its start time.
    pub start: u32,
}

/// Who sent a Handshake, and whom the sender took its peer for.
#[repr(C)]
#[derive(Clone, Copy, Debug, Default, PartialEq, Eq)]
pub struct NetPids {
    pub sender: NetPid,
    pub peer: NetPid,
}

/// The processes that a Handshake with this body names. Of fewer than 28 bytes,
/// which [`receive`](crate::Link::receive) refuses, what is there is read, and
/// the rest is 0.
pub fn net_pids(body: &[u8]) -> NetPids {
    // SAFETY: the pointer and length are a slice's.
    unsafe { raw::relay_read_netpids(body.as_ptr(), body.len()) }
}
