//! The processes that a Handshake names. The second program does not read
//! them, so they are read here: flags 4, then sender and peer, each IP 4, port
//! 2, pid 2, start time 4.

use crate::compare::{same, Compared};
use crate::counts::Counts;
use reference::generator::Generator;
use relay::{net_pids, NetPid, NetPids};

/// A body of any length, 28 bytes or another.
pub fn case(g: &mut Generator, counts: &mut Counts) -> Compared {
    let length = g.below(41) as usize;
    let body = g.bytes(length);
    counts.add("NetPIDs", Ok(if length < 28 { "cut" } else { "whole" }));
    compare(&body)
}

pub fn compare(body: &[u8]) -> Compared {
    let call = || format!("body {body:02x?}");
    same("NetPIDs", call, net_pids(body), read(body))
}

/// What is missing counts as 0.
fn read(body: &[u8]) -> NetPids {
    let byte = |at: usize| body.get(at).copied().unwrap_or(0);
    let twelve = |at| std::array::from_fn(|i| byte(at + i));
    NetPids {
        sender: netpid(twelve(4)),
        peer: netpid(twelve(16)),
    }
}

pub fn netpid(bytes: [u8; 12]) -> NetPid {
    let [a, b, c, d, e, f, g, h, i, j, k, l] = bytes;
    NetPid {
        ip: u32::from_le_bytes([a, b, c, d]),
        port: u16::from_le_bytes([e, f]),
        pid: u16::from_le_bytes([g, h]),
        start: u32::from_le_bytes([i, j, k, l]),
    }
}
