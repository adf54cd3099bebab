//! What the calls on stores and batches mean, said slowly and plainly over values. Numbers are those of the paper's table; that
//! of a buffer that is too short is not looked at.

use crate::knowledge::Knowledge;
use crate::meaning::{FIRST_ITEM, ItemId, LAST_ITEM};
use crate::record::{LIVE, Record, TOMBSTONE};
use crate::store::{Batch, Store};

const LARGEST_TICK: u64 = i64::MAX as u64;

impl Knowledge {
    /// The largest known tick of all items and replicas.
    pub fn largest_tick(&self) -> u64 {
        let places = self.ranges.iter().flat_map(|(bound, _)| self.replicas.iter().map(move |id| (bound, id)));
        places.map(|(item, replica)| self.known(item, replica)).max().unwrap_or(0)
    }

    /// 11 or 12 where it has more of something than a result may have.
    pub fn within(self) -> Result<Self, u32> {
        match (self.replicas.len(), self.ranges.len()) {
            (17.., _) => Err(11),
            (_, 65..) => Err(12),
            _ => Ok(self),
        }
    }
}

impl Store {
    /// The store after an edit that sets a tag.
    pub fn edited(&self, item: &ItemId, tag: &[u8; 16]) -> Result<Self, u32> {
        self.changed(item, LIVE, tag)
    }

    /// The store after a deletion.
    pub fn deleted(&self, item: &ItemId) -> Result<Self, u32> {
        match self.record(item) {
            Some(record) if record.kind == LIVE => self.changed(item, TOMBSTONE, &[0; 16]),
            _ => Err(19),
        }
    }

    fn changed(&self, item: &ItemId, kind: u8, tag: &[u8; 16]) -> Result<Self, u32> {
        let largest = self.knowledge.largest_tick();
        if largest == LARGEST_TICK {
            return Err(20);
        }
        let change = (self.own, 1 + largest);
        let mut replicas = self.knowledge.replica_set();
        replicas.insert(self.own);
        let knowledge = Knowledge::with_ticks(self.knowledge.bounds(), replicas, |item, replica| {
            if *replica == self.own { change.1 } else { self.knowledge.known(item, replica) }
        });
        let create = self.record(item).map_or(change, |record| record.create);
        let record = Record { kind, item: *item, change, create, tag: *tag };
        let mut records: Vec<Record> = self.records.iter().filter(|record| record.item != *item).cloned().collect();
        records.push(record);
        Self { own: self.own, knowledge: knowledge.within()?, records }.sorted()
    }

    /// Its records by rising item id; 13 where there are too many.
    fn sorted(mut self) -> Result<Self, u32> {
        self.records.sort_by_key(|record| record.item);
        if self.records.len() > 256 { Err(13) } else { Ok(self) }
    }

    /// The batch for a knowledge and a span.
    pub fn made(&self, knowledge: &Knowledge, first: &ItemId, last: &ItemId) -> Result<Batch, u32> {
        let needed = knowledge.normalised().within()?;
        let learned = self.knowledge.projected(first, last).within()?;
        let inside = self.records.iter().filter(|record| *first <= record.item && record.item <= *last);
        let lacking = inside.filter(|record| !needed.contains(&record.item, &record.change.0, record.change.1));
        let records = lacking.cloned().collect();
        Ok(Batch { first: *first, last: *last, needed, learned, records })
    }

    /// The store after a batch.
    pub fn applied(&self, batch: &Batch) -> Result<Self, u32> {
        let own = |knowledge: &Knowledge, item| knowledge.known(item, &self.own);
        let ahead = batch.learned.ranges.iter().any(|(item, _)| own(&batch.learned, item) > own(&self.knowledge, item));
        if !self.knowledge.covers(&batch.needed, &batch.first, &batch.last) || ahead {
            return Err(18);
        }
        let knowledge = self.knowledge.merged(&batch.learned).within()?;
        let mut records = Vec::new();
        for record in &self.records {
            let other = batch.record(&record.item).filter(|other| other.rank() > record.rank());
            records.push(other.unwrap_or(record).clone());
        }
        records.extend(batch.records.iter().filter(|record| self.record(&record.item).is_none()).cloned());
        Self { own: self.own, knowledge, records }.sorted()
    }

    /// Which side's record of an item wins: 0 neither, 1 the store's, 2 the batch's; and its place on that side.
    pub fn winner(&self, batch: &Batch, item: &ItemId) -> (u32, usize) {
        let place = |records: &[Record]| records.iter().position(|record| record.item == *item);
        match (place(&self.records), place(&batch.records)) {
            (None, None) => (0, 0),
            (Some(here), Some(there)) if batch.records[there].rank() > self.records[here].rank() => (2, there),
            (Some(here), _) => (1, here),
            (None, Some(there)) => (2, there),
        }
    }

    /// Records whose change version the knowledge contains, records in all, and thousandths.
    pub fn coverage(&self, knowledge: &Knowledge) -> [u64; 3] {
        let contains = |record: &&Record| knowledge.contains(&record.item, &record.change.0, record.change.1);
        let contained = self.records.iter().filter(contains).count() as u64;
        let all = self.records.len() as u64;
        [contained, all, if all == 0 { 1000 } else { nearest(contained, all) }]
    }
}

/// The number from 0 to 1000 that comes nearest to 1000 × contained / all, the larger of two: all of them tried from the largest down.
fn nearest(contained: u64, all: u64) -> u64 {
    let distance = |figure: &u64| (figure * all).abs_diff(1000 * contained);
    (0..=1000).rev().min_by_key(distance).unwrap_or(0)
}

/// The ends of the span of all ids.
pub const ALL: [ItemId; 2] = [FIRST_ITEM, LAST_ITEM];
