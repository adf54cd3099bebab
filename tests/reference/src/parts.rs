//! The calls that hand out a part of a store, a batch or a table, and coverage. A part is given by its place.

use std::ops::Range;

use crate::batch::Batch;
use crate::ids;
use crate::record::{self, Pass, Record};
use crate::store::Store;
use crate::view::{Starts, View};

/// The winning record of an item, by its place in the store or in the batch.
#[derive(Clone, Debug, PartialEq, Eq)]
pub enum Winner {
    Neither,
    Store(Range<usize>),
    Batch(Range<usize>),
}

/// The record that an item has, or would have, in the store after the batch.
pub fn winner(store: &[u8], batch: &[u8], item: &[u8]) -> Result<Winner, u32> {
    let (mut starts, mut batch_starts) = (Starts::new(), [Starts::new(), Starts::new()]);
    let store = Store::read(store, &mut starts)?;
    let batch = Batch::read(batch, &mut batch_starts)?;
    let item = ids::item(item)?;
    let held = record::find(store.records, item).ok();
    let brought = record::find(batch.records, item).ok();
    Ok(match (held, brought) {
        (None, None) => Winner::Neither,
        (Some(held), None) => Winner::Store(store.record_place(held)),
        (None, Some(brought)) => Winner::Batch(batch.record_place(brought)),
        (Some(held), Some(brought)) => {
            if Record(&batch.records[brought]).wins(Record(&store.records[held])) {
                Winner::Batch(batch.record_place(brought))
            } else {
                Winner::Store(store.record_place(held))
            }
        }
    })
}

/// The learned knowledge of a batch.
pub fn learned(batch: &[u8]) -> Result<Range<usize>, u32> {
    let mut starts = [Starts::new(), Starts::new()];
    Batch::read(batch, &mut starts).map(|batch| batch.learned_place())
}

/// The knowledge of a store.
pub fn knowledge(store: &[u8]) -> Result<Range<usize>, u32> {
    let mut starts = Starts::new();
    Store::read(store, &mut starts).map(|store| store.knowledge_place())
}

/// The length of the record at a place of a table, 0 where no whole record of a known kind stands there.
pub fn walk(table: &[u8], at: u64) -> u64 {
    let rest = usize::try_from(at).ok().and_then(|at| table.get(at..)).unwrap_or(&[]);
    match rest {
        [record::LIVE | record::TOMBSTONE, ..] if rest.len() >= record::LENGTH => record::LENGTH as u64,
        _ => 0,
    }
}

/// How much of a store a knowledge contains.
#[derive(Clone, Copy, Debug, PartialEq, Eq)]
pub struct Coverage {
    /// Records whose change version it contains.
    pub contained: u64,
    pub all: u64,
    /// 1000 × contained / all to the nearest, an exact half up, and 1000 for no records.
    pub thousandths: u64,
}

/// How much of a store a knowledge contains.
pub fn coverage(store: &[u8], knowledge: &[u8]) -> Result<Coverage, u32> {
    let (mut starts, mut knowledge_starts) = (Starts::new(), Starts::new());
    let store = Store::read(store, &mut starts)?;
    let knowledge = View::read(knowledge, &mut knowledge_starts)?;
    let mut pass = Pass::new(&knowledge);
    let records = store.records.iter().map(Record);
    let contained = records.filter(|record| pass.contains(record.item(), record.change())).count() as u64;
    let all = store.records.len() as u64;
    // Of an odd number the half that is left out changes nothing: there is no exact half then.
    let thousandths = (1000 * contained + all / 2).checked_div(all).unwrap_or(1000);
    Ok(Coverage { contained, all, thousandths })
}

/// How far one record of a new item moves the thousandths at most, with so many records before and the same knowledge.
pub fn largest_jump(records: usize) -> u64 {
    1000usize.div_ceil(records + 1) as u64
}
