//! Writing fields from the front of a slice.

/// The bytes not yet written, which have room for what is put there.
pub struct Writer<'a> {
    rest: &'a mut [u8],
}

impl<'a> Writer<'a> {
    pub fn new(out: &'a mut [u8]) -> Self {
        Self { rest: out }
    }

    #[inline]
    pub fn put<const N: usize>(&mut self, field: [u8; N]) {
        let (place, rest) = std::mem::take(&mut self.rest).split_first_chunk_mut().expect("there is room");
        *place = field;
        self.rest = rest;
    }

    #[inline]
    pub fn u32(&mut self, number: u32) {
        self.put(number.to_be_bytes());
    }

    /// The place of so many bytes, to be written.
    #[inline]
    pub fn bytes(&mut self, length: usize) -> &'a mut [u8] {
        let (place, rest) = std::mem::take(&mut self.rest).split_at_mut(length);
        self.rest = rest;
        place
    }

    /// The places of fields that follow each other, to be written.
    #[inline]
    pub fn many<const N: usize>(&mut self, count: usize) -> &'a mut [[u8; N]] {
        self.bytes(N * count).as_chunks_mut().0
    }

    /// Writes a copy.
    #[inline]
    pub fn copy(&mut self, bytes: &[u8]) {
        self.bytes(bytes.len()).copy_from_slice(bytes);
    }

    pub fn is_full(&self) -> bool {
        self.rest.is_empty()
    }
}
