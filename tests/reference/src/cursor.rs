//! Reading fields from the front of a slice.

use crate::refusal::{CUT, FIXED_FIELD};

/// The bytes not yet read. Every field is taken whole: if the bytes end inside it, it is refused as cut before anyone
/// looks at its value.
pub struct Cursor<'a> {
    rest: &'a [u8],
}

impl<'a> Cursor<'a> {
    pub fn new(bytes: &'a [u8]) -> Self {
        Self { rest: bytes }
    }

    /// The next `N` bytes.
    #[inline]
    pub fn take<const N: usize>(&mut self) -> Result<&'a [u8; N], u32> {
        let (field, rest) = self.rest.split_first_chunk().ok_or(CUT)?;
        self.rest = rest;
        Ok(field)
    }

    /// A field that must have this value.
    #[inline]
    pub fn fixed<const N: usize>(&mut self, value: [u8; N]) -> Result<(), u32> {
        if *self.take::<N>()? == value { Ok(()) } else { Err(FIXED_FIELD) }
    }

    #[inline]
    pub fn u32(&mut self) -> Result<u32, u32> {
        self.take().copied().map(u32::from_be_bytes)
    }

    #[inline]
    pub fn u64(&mut self) -> Result<u64, u32> {
        self.take().copied().map(u64::from_be_bytes)
    }

    /// The bytes not yet read.
    pub fn rest(&self) -> &'a [u8] {
        self.rest
    }
}
