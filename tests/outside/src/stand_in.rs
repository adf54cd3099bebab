//! The reference in the place of an engine.

use crate::calls;
use crate::changing;
use crate::comparing;
use crate::reading::{self, Found, counts, found, part};

/// An engine whose calls are those of the reference.
pub struct Reference;

/// Sets a value, or gives the number of the refusal.
pub fn set<T>(answer: Result<T, u32>, value: &mut T) -> u32 {
    match answer {
        Ok(right) => {
            *value = right;
            0
        }
        Err(number) => number,
    }
}

impl calls::Engine for Reference {
    fn contain(&self, knowledge: &[u8], item: &[u8], replica: &[u8], tick: u64, value: &mut u32) -> u32 {
        set(reference::contain(knowledge, item, replica, tick).map(u32::from), value)
    }

    fn lead(&self, [first, second]: [&[u8]; 2], item: &[u8], replica: &[u8], value: &mut i64) -> u32 {
        set(reference::lead(first, second, item, replica), value)
    }

    fn cover(&self, [first, second]: [&[u8]; 2], [from, to]: [&[u8]; 2], value: &mut u32) -> u32 {
        set(reference::cover(first, second, from, to).map(u32::from), value)
    }
}

impl reading::Engine for Reference {
    fn winner(&self, store: &[u8], batch: &[u8], item: &[u8], value: &mut Found) -> u32 {
        set(reference::winner(store, batch, item).map(found), value)
    }

    fn learned(&self, batch: &[u8], value: &mut [u64; 2]) -> u32 {
        set(reference::learned(batch).map(part), value)
    }

    fn coverage(&self, store: &[u8], knowledge: &[u8], value: &mut [u64; 3]) -> u32 {
        set(reference::coverage(store, knowledge).map(counts), value)
    }

    fn knowledge(&self, store: &[u8], value: &mut [u64; 2]) -> u32 {
        set(reference::knowledge(store).map(part), value)
    }

    fn walk(&self, table: &[u8], at: u64, length: &mut u64) -> u32 {
        set(Ok(reference::walk(table, at)), length)
    }
}

/// Sets the length of what was written, or gives the number of the refusal.
fn wrote(answer: Result<usize, u32>, written: &mut u64) -> u32 {
    set(answer.map(|length| length as u64), written)
}

impl comparing::Engine for Reference {
    fn compare(&self, [first, second]: [&[u8]; 2], order: &mut u32, out: &mut [u8], written: &mut u64) -> u32 {
        let answer = reference::compare(first, second, out);
        set(answer.map(|(order, _)| order), order);
        wrote(answer.map(|(_, length)| length), written)
    }
}

impl changing::Engine for Reference {
    fn new_store(&self, own: &[u8], out: &mut [u8], written: &mut u64) -> u32 {
        wrote(reference::new(own, out), written)
    }

    fn edit(&self, store: &[u8], item: &[u8], tag: &[u8], out: &mut [u8], written: &mut u64) -> u32 {
        wrote(reference::edit(store, item, tag, out), written)
    }

    fn delete(&self, store: &[u8], item: &[u8], out: &mut [u8], written: &mut u64) -> u32 {
        wrote(reference::delete(store, item, out), written)
    }

    fn make(&self, store: &[u8], knowledge: &[u8], span: [&[u8]; 2], out: &mut [u8], written: &mut u64) -> u32 {
        wrote(reference::make(store, knowledge, span[0], span[1], out), written)
    }

    fn apply(&self, store: &[u8], batch: &[u8], out: &mut [u8], written: &mut u64) -> u32 {
        wrote(reference::apply(store, batch, out), written)
    }
}
