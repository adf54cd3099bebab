//! The calls that read stores, batches and tables of records.

use super::Linked;
use crate::reading::{Engine, Found};

/// The calls as C has them, where what they find is several values.
mod found {
    calls! {
        winner = sync_winner([store, batch, item], side: &mut u32, at: &mut u64, length: &mut u64);
        learned = sync_learned([batch], at: &mut u64, length: &mut u64);
        coverage = sync_coverage([store, knowledge], contained: &mut u64, all: &mut u64, thousandths: &mut u64);
        knowledge = sync_knowledge([store], at: &mut u64, length: &mut u64);
    }
}

calls! {
    /// The length of the record at a place of a table, 0 where there is none. Gives 0.
    walk = sync_walk([table], at: u64, length: &mut u64);
}

/// The winning record of an item. Gives 0 and sets side, place and length, or gives the number of the refusal.
#[inline]
pub fn winner(store: &[u8], batch: &[u8], item: &[u8], Found { side, at, length }: &mut Found) -> u32 {
    found::winner(store, batch, item, side, at, length)
}

/// The learned knowledge of a batch. Gives 0 and sets place and length, or gives the number of the refusal.
#[inline]
pub fn learned(batch: &[u8], [at, length]: &mut [u64; 2]) -> u32 {
    found::learned(batch, at, length)
}

/// Records contained, records in all, and thousandths. Gives 0 and sets them, or gives the number of the refusal.
#[inline]
pub fn coverage(store: &[u8], knowledge: &[u8], [contained, all, thousandths]: &mut [u64; 3]) -> u32 {
    found::coverage(store, knowledge, contained, all, thousandths)
}

/// The knowledge of a store. Gives 0 and sets place and length, or gives the number of the refusal.
#[inline]
pub fn knowledge(store: &[u8], [at, length]: &mut [u64; 2]) -> u32 {
    found::knowledge(store, at, length)
}

impl Engine for Linked {
    fn winner(&self, store: &[u8], batch: &[u8], item: &[u8], found: &mut Found) -> u32 {
        winner(store, batch, item, found)
    }

    fn learned(&self, batch: &[u8], part: &mut [u64; 2]) -> u32 {
        learned(batch, part)
    }

    fn coverage(&self, store: &[u8], other: &[u8], counts: &mut [u64; 3]) -> u32 {
        coverage(store, other, counts)
    }

    fn knowledge(&self, store: &[u8], part: &mut [u64; 2]) -> u32 {
        knowledge(store, part)
    }

    fn walk(&self, table: &[u8], at: u64, length: &mut u64) -> u32 {
        walk(table, at, length)
    }
}
