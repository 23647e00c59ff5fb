//! The values that the protocol document prints its vectors for. It prints the
//! nonces with 15 letters each, without O and o; the messages that it prints
//! have all 16. The server's IP is printed without its leading 0.

use super::{Peer, Request};
use crate::message::Side;

pub const VERSIONS: [u8; 3] = [0, 1, 2];

const CLIENT: Peer = Peer {
    random: *b"abcdefghijklmnop",
    time: 0x0102_0304,
    ip: 0x0506_0708,
    port: 0x090a,
};

/// Its time equals its IP, says the section on version 1.
const SERVER: Peer = Peer {
    random: *b"ABCDEFGHIJKLMNOP",
    time: 0x0d0e_0f10,
    ip: 0x0d0e_0f10,
    port: 0x1112,
};

const SHARED: [u8; 32] = [
    0x45, 0x41, 0xd9, 0xfd, 0x52, 0x63, 0x29, 0x87, 0x36, 0xd6, 0xec, 0xdf, 0xa8, 0xc5, 0x83, 0x4e,
    0x12, 0xb5, 0x4e, 0x2a, 0xd3, 0xbb, 0x95, 0xa5, 0x0d, 0x20, 0x85, 0xdd, 0x40, 0x75, 0xf4, 0x58,
];

pub fn request(version: u8, sender: Side) -> Request<'static> {
    Request {
        version,
        sender,
        client: CLIENT,
        server: SERVER,
        key: b"hren",
        shared: SHARED,
    }
}
