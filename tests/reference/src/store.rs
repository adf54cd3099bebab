//! A valid store, read where it lies.

use std::ops::Range;

use crate::normal::Normal;
use crate::record::{self, Bytes};
use crate::refusal::STORE;
use crate::view::{ReplicaId, Starts};

pub const KIND: u8 = 3;
/// Kind, own replica id, length of the knowledge, count of records.
pub const HEADER: usize = 25;

pub struct Store<'a> {
    pub own: &'a ReplicaId,
    pub knowledge: Normal<'a>,
    pub records: &'a [Bytes],
    /// The key of the own replica, if it has one, and its tick, which is the same in all ranges.
    pub own_key: Option<usize>,
    pub own_tick: u64,
}

impl<'a> Store<'a> {
    /// Reads a store, or refuses one that is not valid.
    #[inline(always)] // else it is copied from where it is returned
    pub fn read(bytes: &'a [u8], starts: &'a mut Starts) -> Result<Self, u32> {
        Self::valid(bytes, starts).ok_or(STORE)
    }

    #[inline(always)]
    fn valid(bytes: &'a [u8], starts: &'a mut Starts) -> Option<Self> {
        let (own, knowledge, records) = parts(bytes)?;
        let knowledge = Normal::read(knowledge, starts)?;
        let own_key = knowledge.view.replicas().iter().position(|id| id == own);
        let own_tick = match own_key {
            Some(key) => alike(&knowledge, key)?,
            None => 0,
        };
        let store = Self { own, knowledge, records, own_key, own_tick };
        record::are_valid(records, &store.knowledge.view).then_some(store)
    }

    /// Where the knowledge stands in the store.
    pub fn knowledge_place(&self) -> Range<usize> {
        HEADER..HEADER + self.knowledge.bytes.len()
    }

    /// Where a record stands in the store.
    pub fn record_place(&self, record: usize) -> Range<usize> {
        let start = HEADER + self.knowledge.bytes.len() + record::LENGTH * record;
        start..start + record::LENGTH
    }
}

/// Own replica id, knowledge and records of bytes that have the length and kind of a store.
#[inline]
fn parts(bytes: &[u8]) -> Option<(&ReplicaId, &[u8], &[Bytes])> {
    let (header, rest) = bytes.split_first_chunk::<HEADER>()?;
    let length = u32::from_be_bytes(*header[17..].first_chunk()?) as usize;
    let count = u32::from_be_bytes(*header[21..].first_chunk()?) as usize;
    if header[0] != KIND || count > record::RECORDS || rest.len() != length + record::LENGTH * count {
        return None;
    }
    let (knowledge, records) = rest.split_at(length);
    Some((header[1..].first_chunk()?, knowledge, records.as_chunks().0))
}

/// The tick of a replica that has one, if it is the same in all ranges.
#[inline]
fn alike(knowledge: &Normal, key: usize) -> Option<u64> {
    let mut ticks = knowledge.ticks(key);
    let first = ticks.next().unwrap_or(0);
    (ticks.all(|tick| tick == first) && !knowledge.has_empty_range()).then_some(first)
}
