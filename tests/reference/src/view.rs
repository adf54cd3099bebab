//! A knowledge without fault, read where it lies.

use crate::knowledge::{Places, read};

/// As many replicas, and as many vectors, as a knowledge has at most.
pub const REPLICAS: usize = 16;
pub const VECTORS: usize = 65;

pub type ItemId = [u8; 24];
pub type ReplicaId = [u8; 16];

pub const FIRST_ITEM: ItemId = [0; 24];
pub const LAST_ITEM: ItemId = [255; 24];

/// An item id as words, which are in the same order as the ids and quicker to compare.
#[inline]
pub fn words(id: &ItemId) -> (u128, u64) {
    let (high, low) = id.split_at(16);
    let high = high.try_into().expect("16 bytes");
    let low = low.try_into().expect("8 bytes");
    (u128::from_be_bytes(high), u64::from_be_bytes(low))
}

/// The bytes of an element of a clock vector.
pub struct Element<'a>(&'a [u8; 12]);

impl<'a> Element<'a> {
    #[inline]
    pub fn new(bytes: &'a [u8; 12]) -> Self {
        Self(bytes)
    }

    #[inline]
    pub fn key(&self) -> usize {
        let &[a, b, c, d, ..] = self.0;
        u32::from_be_bytes([a, b, c, d]) as usize
    }

    #[inline]
    pub fn tick(&self) -> u64 {
        let &[_, _, _, _, a, b, c, d, e, f, g, h] = self.0;
        u64::from_be_bytes([a, b, c, d, e, f, g, h])
    }
}

/// The bytes of a range.
#[derive(Clone, Copy)]
pub struct Range<'a>(&'a [u8; 28]);

impl<'a> Range<'a> {
    #[inline]
    pub fn new(bytes: &'a [u8; 28]) -> Self {
        Self(bytes)
    }

    #[inline]
    pub fn bound(self) -> &'a ItemId {
        self.0.first_chunk().expect("a range begins with its bound")
    }

    #[inline]
    pub fn index(self) -> usize {
        u32::from_be_bytes(*self.0.last_chunk().expect("a range ends with its index")) as usize
    }
}

/// The ranges of a knowledge, by rising bound.
#[derive(Clone, Copy)]
pub struct Ranges<'a>(&'a [[u8; 28]]);

impl<'a> Ranges<'a> {
    #[inline]
    pub fn count(self) -> usize {
        self.0.len()
    }

    #[inline]
    pub fn iter(self) -> impl Iterator<Item = Range<'a>> {
        self.0.iter().map(Range)
    }

    #[inline]
    pub fn get(self, place: usize) -> Option<Range<'a>> {
        self.0.get(place).map(Range)
    }

    /// How many have a bound at or below the item.
    #[inline]
    pub fn up_to(self, item: &ItemId) -> usize {
        let item = words(item);
        self.0.partition_point(|range| words(Range(range).bound()) <= item)
    }

    /// The first so many.
    #[inline]
    pub fn first(self, count: usize) -> Self {
        Self(&self.0[..count])
    }
}

/// How many bytes of a knowledge are left from each part on: kept while it is read, and borrowed by its view, so that
/// nothing is copied.
pub struct Starts {
    pub replicas: usize,
    pub ranges: usize,
    /// From the element count of each vector on; 0 for the first one, which has no elements. No accepted knowledge has 2^16
    /// bytes.
    pub elements: [u16; VECTORS],
}

impl Starts {
    #[inline]
    pub fn new() -> Self {
        Self { replicas: 0, ranges: 0, elements: [0; VECTORS] }
    }
}

impl Places for Starts {
    #[inline]
    fn replica_ids(&mut self, left: usize) {
        self.replicas = left;
    }

    #[inline]
    fn elements(&mut self, vector: u32, left: usize) {
        self.elements[vector as usize] = left as u16;
    }

    #[inline]
    fn ranges(&mut self, left: usize) {
        self.ranges = left;
    }
}

/// A knowledge without fault.
pub struct View<'a> {
    bytes: &'a [u8],
    replicas: &'a [ReplicaId],
    ranges: Ranges<'a>,
    elements: &'a [u16; VECTORS],
}

impl<'a> View<'a> {
    /// Reads a knowledge, or gives the number of its first fault.
    #[inline(always)] // else it is copied from where it is returned
    pub fn read(bytes: &'a [u8], starts: &'a mut Starts) -> Result<Self, u32> {
        let sizes = read(bytes, starts)?;
        Ok(Self::new(bytes, sizes.r as usize, sizes.g as usize, starts))
    }

    /// A knowledge without fault of so many replicas and ranges, whose parts start as was kept.
    #[inline(always)] // else it is copied from where it is returned
    pub fn new(bytes: &'a [u8], r: usize, g: usize, starts: &'a Starts) -> Self {
        let from = |left| &bytes[bytes.len() - left..];
        Self {
            bytes,
            replicas: &from(starts.replicas).as_chunks().0[..r],
            ranges: Ranges(&from(starts.ranges).as_chunks().0[..g]),
            elements: &starts.elements,
        }
    }

    pub fn replicas(&self) -> &'a [ReplicaId] {
        self.replicas
    }

    pub fn ranges(&self) -> Ranges<'a> {
        self.ranges
    }

    /// The elements of a vector.
    #[inline]
    pub fn elements(&self, index: usize) -> impl Iterator<Item = Element<'a>> {
        self.vector(index).iter().map(Element)
    }

    #[inline]
    fn vector(&self, index: usize) -> &'a [[u8; 12]] {
        let left = self.elements[index] as usize;
        let (count, rest) = self.bytes[self.bytes.len() - left..].split_first_chunk().unwrap_or((&[0; 4], &[]));
        &rest.as_chunks().0[..u32::from_be_bytes(*count) as usize]
    }

    /// The tick of a replica in a vector, 0 where it has none.
    #[inline]
    pub fn tick(&self, index: usize, key: usize) -> u64 {
        let vector = self.vector(index);
        // In a vector with all replicas by rising key, each stands at its key's place.
        match vector.get(key).map(Element) {
            Some(element) if element.key() == key => element.tick(),
            _ => vector.iter().map(Element).find(|element| element.key() == key).map_or(0, |element| element.tick()),
        }
    }

    /// Where the tick of a replica that has one in a vector stands.
    #[inline]
    pub fn tick_place(&self, index: usize, key: usize) -> usize {
        let place = self.elements(index).position(|element| element.key() == key).expect("it has a tick");
        self.bytes.len() - self.elements[index] as usize + 4 + 12 * place + 4
    }

    /// The tick known for an item and a replica.
    #[inline]
    pub fn known(&self, item: &ItemId, replica: &ReplicaId) -> u64 {
        let range = self.ranges.up_to(item).checked_sub(1).and_then(|place| self.ranges.get(place));
        let key = self.replicas.iter().position(|id| id == replica);
        let (Some(range), Some(key)) = (range, key) else { return 0 };
        self.elements(range.index()).find(|element| element.key() == key).map_or(0, |element| element.tick())
    }
}
