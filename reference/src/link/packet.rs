//! The packet around a body: length, number, type, body, checksum.

use crate::checksum::Polynomial;
use crate::message::Span;
use crate::numbers::read_u32;
use crate::refusal::Refusal;

pub const NONCE: u32 = 0x7acb_87aa;
pub const HANDSHAKE: u32 = 0x7682_eef5;
pub const PING: u32 = 0x5730_a2df;
pub const PONG: u32 = 0x8430_eaa7;

/// -2, in each direction.
pub const FIRST_NUMBER: u32 = u32::MAX - 1;

const FRONT: usize = 12;
const AROUND_BODY: usize = 16;
const LONGEST: usize = 16_777_215;
const LONGEST_IN_OPENING: usize = 1023;

/// What a packet with the zeros behind it is a multiple of.
const ALIGNED: usize = 4;

/// The length of the packet that `bytes` begin with, once four are there.
pub fn length(bytes: &[u8], in_opening: bool) -> Result<Option<usize>, Refusal> {
    if bytes.len() < 4 {
        return Ok(None);
    }
    let length = read_u32(bytes, 0) as usize;
    if length < AROUND_BODY {
        Err(Refusal::LengthTooShort)
    } else if in_opening && length > LONGEST_IN_OPENING {
        Err(Refusal::LengthInOpening)
    } else if length > LONGEST {
        Err(Refusal::LengthTooLong)
    } else {
        Ok(Some(length))
    }
}

#[derive(Clone, Copy)]
pub struct Front {
    pub number: u32,
    pub packet_type: u32,
}

/// Number and type, once they are there.
pub fn front(bytes: &[u8]) -> Option<Front> {
    (bytes.len() >= FRONT).then(|| Front {
        number: read_u32(bytes, 4),
        packet_type: read_u32(bytes, 8),
    })
}

/// The place of the body within a whole packet, if its checksum is right.
pub fn checked_body(packet: &[u8], checksum: Polynomial) -> Result<Span, Refusal> {
    let (summed, sum) = packet.split_at(packet.len() - 4);
    if read_u32(sum, 0) != checksum.of(summed) {
        return Err(Refusal::Checksum);
    }
    Ok(Span {
        at: FRONT,
        len: packet.len() - AROUND_BODY,
    })
}

/// The body of a Ping or Pong.
pub fn ping_id(body: &[u8]) -> Result<u64, Refusal> {
    let id = body.try_into().map_err(|_| Refusal::WrongSize)?;
    Ok(u64::from_le_bytes(id))
}

pub fn whole(number: u32, packet_type: u32, body: &[u8], checksum: Polynomial) -> Vec<u8> {
    let length = (body.len() + AROUND_BODY) as u32;
    let mut packet = Vec::with_capacity(body.len() + AROUND_BODY);
    for field in [length, number, packet_type] {
        packet.extend(field.to_le_bytes());
    }
    packet.extend(body);
    let sum = checksum.of(&packet);
    packet.extend(sum.to_le_bytes());
    packet
}

/// How many zeros follow a packet of this length where they do.
pub fn zeros(length: usize) -> usize {
    length.next_multiple_of(ALIGNED) - length
}

/// At the front of `buffer`, whose other bytes stay; 16 leaves all of them.
pub(super) fn put(buffer: &mut [u8], bytes: &[u8]) -> Result<(), Refusal> {
    buffer
        .get_mut(..bytes.len())
        .ok_or(Refusal::BufferTooSmall)?
        .copy_from_slice(bytes);
    Ok(())
}
