//! The types of packets.

pub const NONCE: u32 = 0x7acb_87aa;
pub const HANDSHAKE: u32 = 0x7682_eef5;
pub const PING: u32 = 0x5730_a2df;
pub const PONG: u32 = 0x8430_eaa7;

// Messages of a client.
pub const INVOKE: u32 = 0x2374_df3d;
pub const CANCEL: u32 = 0x193f_1b22;
pub const CLIENT_FIN: u32 = 0x0b73_429e;

// Messages of a server.
pub const RESULT: u32 = 0x63ae_da4e;
/// Read, never written.
pub const OLD_ERROR: u32 = 0x7ae4_32f5;
pub const SERVER_FIN: u32 = 0xa8dd_bc46;
