//! The fields of a body, taken one after the other from its front.

use super::Span;
use crate::refusal::Refusal;

pub struct Fields<'a> {
    body: &'a [u8],
    at: usize,
}

impl<'a> Fields<'a> {
    pub fn new(body: &'a [u8]) -> Self {
        Fields { body, at: 0 }
    }

    /// What has not been taken yet.
    pub fn left(&self) -> &'a [u8] {
        &self.body[self.at..]
    }

    /// The next N bytes, or 11 if the body ends before.
    fn take<const N: usize>(&mut self) -> Result<[u8; N], Refusal> {
        let field = *self.left().first_chunk().ok_or(Refusal::CutOff)?;
        self.at += N;
        Ok(field)
    }

    pub fn u32(&mut self) -> Result<u32, Refusal> {
        self.take().map(u32::from_le_bytes)
    }

    pub fn i32(&mut self) -> Result<i32, Refusal> {
        self.take().map(i32::from_le_bytes)
    }

    pub fn i64(&mut self) -> Result<i64, Refusal> {
        self.take().map(i64::from_le_bytes)
    }

    /// The next four bytes if they are all there and `accepted`; else nothing
    /// is taken.
    pub fn value(&mut self, accepted: &[u32]) -> Option<u32> {
        let value = u32::from_le_bytes(*self.left().first_chunk()?);
        if !accepted.contains(&value) {
            return None;
        }
        self.at += 4;
        Some(value)
    }

    /// Takes `skipped + len + padding` bytes, which must be there, and hands
    /// back the place of the `len` ones.
    pub fn span(&mut self, skipped: usize, len: usize, padding: usize) -> Span {
        let at = self.at + skipped;
        self.at = at + len + padding;
        Span { at, len }
    }

    /// All that is left.
    pub fn payload(&mut self) -> Span {
        self.span(0, self.left().len(), 0)
    }

    /// 17 if anything is left.
    pub fn end(&self) -> Result<(), Refusal> {
        if self.left().is_empty() {
            Ok(())
        } else {
            Err(Refusal::WrongSize)
        }
    }
}
