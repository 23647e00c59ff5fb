//! The 32-bit values that name messages and headers.

pub const INVOKE: u32 = 0x2374_df3d;
pub const CANCEL: u32 = 0x193f_1b22;
pub const CLIENT_FIN: u32 = 0x0b73_429e;
pub const RESULT: u32 = 0x63ae_da4e;
pub const OLD_ERROR: u32 = 0x7ae4_32f5;
pub const SERVER_FIN: u32 = 0xa8dd_bc46;

pub const DEST_FLAGS: u32 = 0xe352_035e;
pub const DEST_ACTOR: u32 = 0x7568_aabd;
pub const DEST_ACTOR_FLAGS: u32 = 0xf0a5_acf7;
pub const DIAGONAL: u32 = 0xbceb_94c3;
pub const DIAGONAL_TARGETS: u32 = 0xee09_0e42;
pub const TL2_MARKER: u32 = 0x2932_4c54;

pub const RESULT_HEADER: u32 = 0x8cc8_4ce1;
pub const ERROR: u32 = 0xb527_877d;
pub const ERROR_WRAPPED: u32 = 0x7ae4_32f6;
/// The same value as the old error message, here inside a result.
pub const ERROR_NUMBERED: u32 = 0x7ae4_32f5;

/// The values a payload may not begin with in an invoke without the marker.
pub const REQUEST_HEADERS: [u32; 6] = [
    DEST_FLAGS,
    DEST_ACTOR,
    DEST_ACTOR_FLAGS,
    DIAGONAL,
    DIAGONAL_TARGETS,
    TL2_MARKER,
];

/// The values a payload may not begin with in a result.
pub const RESULT_HEADERS: [u32; 4] = [RESULT_HEADER, ERROR, ERROR_WRAPPED, ERROR_NUMBERED];

/// The one bit of an invoke's mask that our links carry: a timeout follows.
pub const TIMEOUT_BIT: u32 = 1 << 23;
