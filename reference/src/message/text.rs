//! The text of an error: its length, its bytes, and zeros until the whole is a
//! multiple of 4.

use super::fields::Fields;
use super::Span;
use crate::refusal::Refusal;

/// The first byte of the long form; below it, the first byte is the length.
const LONG: u8 = 254;
const LONGEST_SHORT: usize = 253;

/// A bad first byte or length is seen before a cut, a cut before bad zeros.
pub fn read(fields: &mut Fields) -> Result<Span, Refusal> {
    let bytes = fields.left();
    let (front, len) = match bytes.first() {
        None => return Err(Refusal::CutOff),
        Some(&LONG) => (4, long_length(bytes)?),
        Some(&first) if first < LONG => (1, usize::from(first)),
        Some(_) => return Err(Refusal::TextForm),
    };
    let padding = padding(front + len);
    let zeros = bytes
        .get(front + len..front + len + padding)
        .ok_or(Refusal::CutOff)?;
    if zeros.iter().any(|&byte| byte != 0) {
        return Err(Refusal::TextForm);
    }
    Ok(fields.span(front, len, padding))
}

/// Of the long form: three bytes, of which some may be cut off.
fn long_length(bytes: &[u8]) -> Result<usize, Refusal> {
    let &[_, low, middle, high] = bytes.first_chunk().ok_or(Refusal::CutOff)?;
    let len = u32::from_le_bytes([low, middle, high, 0]) as usize;
    if len > LONGEST_SHORT {
        Ok(len)
    } else {
        Err(Refusal::TextForm)
    }
}

/// How many zeros follow `size` bytes.
pub fn padding(size: usize) -> usize {
    size.wrapping_neg() % 4
}

/// A length of 2^24 or more is written wrong, but then the body is too long
/// for a packet, and the message writer refuses it.
pub fn push(body: &mut Vec<u8>, text: &[u8]) {
    let start = body.len();
    if text.len() <= LONGEST_SHORT {
        body.push(text.len() as u8);
    } else {
        body.push(LONG);
        body.extend(&text.len().to_le_bytes()[..3]);
    }
    body.extend(text);
    let padding = padding(body.len() - start);
    body.extend(&[0; 3][..padding]);
}
