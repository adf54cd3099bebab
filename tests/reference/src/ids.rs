//! Ids given to a call.

use crate::refusal::IDS;
use crate::view::{FIRST_ITEM, ItemId, LAST_ITEM, ReplicaId, words};

#[inline]
pub fn item(id: &[u8]) -> Result<&ItemId, u32> {
    id.try_into().map_err(|_| IDS)
}

#[inline]
pub fn replica(id: &[u8]) -> Result<&ReplicaId, u32> {
    id.try_into().map_err(|_| IDS)
}

/// A content tag.
#[inline]
pub fn tag(tag: &[u8]) -> Result<&[u8; 16], u32> {
    tag.try_into().map_err(|_| IDS)
}

/// The item ids from a first to a last, both included.
#[derive(Clone, Copy)]
pub struct Span<'a> {
    pub first: &'a ItemId,
    pub last: &'a ItemId,
}

impl<'a> Span<'a> {
    pub const ALL: Self = Self { first: &FIRST_ITEM, last: &LAST_ITEM };

    #[inline]
    pub fn new(first: &'a [u8], last: &'a [u8]) -> Result<Self, u32> {
        let (first, last) = (item(first)?, item(last)?);
        if words(first) <= words(last) { Ok(Self { first, last }) } else { Err(IDS) }
    }

    #[inline]
    pub fn contains(self, item: &ItemId) -> bool {
        words(self.first) <= words(item) && words(item) <= words(self.last)
    }
}

/// The id behind an item's; nothing follows the last one.
pub fn next_item(item: &ItemId) -> Option<ItemId> {
    let mut next = *item;
    for byte in next.iter_mut().rev() {
        *byte = byte.wrapping_add(1);
        if *byte != 0 {
            return Some(next);
        }
    }
    None
}
