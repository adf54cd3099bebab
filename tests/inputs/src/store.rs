//! Stores and batches as values: writing them, valid or not, and whether they are valid, said slowly and plainly.

use crate::knowledge::{Kind, Knowledge, Written};
use crate::meaning::{ItemId, ReplicaId};
use crate::record::{Record, part};

const MOST_RECORDS: usize = 256;

#[derive(Clone, Debug, PartialEq, Eq)]
pub struct Store {
    pub own: ReplicaId,
    pub knowledge: Knowledge,
    pub records: Vec<Record>,
}

#[derive(Clone, Debug, PartialEq, Eq)]
pub struct Batch {
    pub first: ItemId,
    pub last: ItemId,
    pub needed: Knowledge,
    pub learned: Knowledge,
    pub records: Vec<Record>,
}

impl Store {
    pub const HEADER: usize = 25;
    /// The length of the longest valid store.
    pub const LONGEST: usize = Self::HEADER + Knowledge::LONGEST + MOST_RECORDS * Record::LENGTH;

    /// The store of a replica that has seen nothing.
    pub fn new(own: ReplicaId) -> Self {
        Self { own, knowledge: Knowledge::smallest(), records: Vec::new() }
    }

    pub fn write(&self) -> Written {
        self.write_with(&self.knowledge.write())
    }

    /// Writes the store with other bytes in place of its knowledge's.
    pub fn write_with(&self, knowledge: &Written) -> Written {
        let mut out = Written::default();
        out.field(Kind::Opening, &[3]);
        out.field(Kind::Own, &self.own);
        out.number(Kind::Length, knowledge.bytes.len() as u32);
        out.number(Kind::RecordCount, self.records.len() as u32);
        out.append(knowledge);
        self.records.iter().for_each(|record| record.write(&mut out));
        out
    }

    pub fn bytes(&self) -> Vec<u8> {
        self.write().bytes
    }

    /// What the bytes of a valid store say; none where they are not one.
    pub fn opened(bytes: &[u8]) -> Option<Self> {
        let header = bytes.get(..Self::HEADER)?;
        let (length, count) = (u32::from_be_bytes(part(header, 17)), u32::from_be_bytes(part(header, 21)));
        let [knowledge, records] = split(&bytes[Self::HEADER..], [length as usize], count)?;
        let knowledge = Knowledge::in_normal_form(knowledge)?;
        let store = Self { own: part(header, 1), knowledge, records: decoded(records) };
        (header[0] == 3 && store.is_valid()).then_some(store)
    }

    /// Whether it is valid, condition by condition.
    pub fn is_valid(&self) -> bool {
        self.knowledge.is_normal()
            && are_records(&self.records)
            && self.records.iter().all(|record| contains_both(&self.knowledge, record))
            && self.own_tick_is_alike()
    }

    pub fn own_tick_is_alike(&self) -> bool {
        let ticks = self.knowledge.ranges.iter().map(|(bound, _)| self.knowledge.known(bound, &self.own));
        ticks.collect::<std::collections::BTreeSet<_>>().len() == 1
    }

    /// The record of an item.
    pub fn record(&self, item: &ItemId) -> Option<&Record> {
        self.records.iter().find(|record| record.item == *item)
    }
}

impl Batch {
    pub const HEADER: usize = 61;
    /// The length of the longest valid batch.
    pub const LONGEST: usize = Self::HEADER + 2 * Knowledge::LONGEST + MOST_RECORDS * Record::LENGTH;

    pub fn write(&self) -> Written {
        self.write_with(&self.needed.write(), &self.learned.write())
    }

    /// Writes the batch with other bytes in place of its knowledges'.
    pub fn write_with(&self, needed: &Written, learned: &Written) -> Written {
        let mut out = Written::default();
        out.field(Kind::Opening, &[4]);
        out.field(Kind::SpanEnd, &self.first);
        out.field(Kind::SpanEnd, &self.last);
        out.number(Kind::Length, needed.bytes.len() as u32);
        out.number(Kind::Length, learned.bytes.len() as u32);
        out.number(Kind::RecordCount, self.records.len() as u32);
        out.append(needed);
        out.append(learned);
        self.records.iter().for_each(|record| record.write(&mut out));
        out
    }

    pub fn bytes(&self) -> Vec<u8> {
        self.write().bytes
    }

    /// What the bytes of a valid batch say; none where they are not one.
    pub fn opened(bytes: &[u8]) -> Option<Self> {
        let header = bytes.get(..Self::HEADER)?;
        let number = |at| u32::from_be_bytes(part(header, at));
        let lengths = [49, 53].map(|at| number(at) as usize);
        let [needed, learned, records] = split(&bytes[Self::HEADER..], lengths, number(57))?;
        let [needed, learned] = [needed, learned].map(Knowledge::in_normal_form);
        let (first, last) = (part(header, 1), part(header, 25));
        let batch = Self { first, last, needed: needed?, learned: learned?, records: decoded(records) };
        (header[0] == 4 && batch.is_valid()).then_some(batch)
    }

    /// Whether it is valid, condition by condition.
    pub fn is_valid(&self) -> bool {
        self.first <= self.last
            && self.needed.is_normal()
            && self.learned.is_normal()
            && self.learned.projected(&self.first, &self.last) == self.learned
            && are_records(&self.records)
            && self.records.iter().all(|record| {
                let (replica, tick) = record.change;
                self.first <= record.item
                    && record.item <= self.last
                    && contains_both(&self.learned, record)
                    && !self.needed.contains(&record.item, &replica, tick)
            })
    }

    /// The record of an item.
    pub fn record(&self, item: &ItemId) -> Option<&Record> {
        self.records.iter().find(|record| record.item == *item)
    }
}

/// Bytes cut into parts of the given lengths and so many records behind them; none where they are not as long as that.
fn split<const N: usize, const M: usize>(bytes: &[u8], lengths: [usize; N], records: u32) -> Option<[&[u8]; M]> {
    let mut rest = bytes;
    let mut parts = Vec::new();
    for length in lengths.into_iter().chain([records as usize * Record::LENGTH]) {
        let (part, behind) = rest.split_at_checked(length)?;
        parts.push(part);
        rest = behind;
    }
    if rest.is_empty() { parts.try_into().ok() } else { None }
}

fn decoded(records: &[u8]) -> Vec<Record> {
    records.chunks(Record::LENGTH).map(Record::decoded).collect()
}

/// Whether records are formed, rise and are not too many.
fn are_records(records: &[Record]) -> bool {
    records.len() <= MOST_RECORDS
        && records.iter().all(Record::is_formed)
        && records.is_sorted_by(|before, behind| before.item < behind.item)
}

fn contains_both(knowledge: &Knowledge, record: &Record) -> bool {
    [record.change, record.create].iter().all(|(replica, tick)| knowledge.contains(&record.item, replica, *tick))
}
