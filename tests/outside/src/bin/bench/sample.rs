//! The knowledges that are measured on, and the rows of the tables of calls that look something up.

use inputs::{FIRST_ITEM, LAST_ITEM, item_id, replica_id};
use inputs::{Field, Kind, Knowledge};

use crate::row::{Asked, Row};

pub struct Sample {
    pub name: &'static str,
    pub knowledge: Knowledge,
    /// Its bytes, and these with a fault.
    pub whole: Vec<u8>,
    pub cut: Vec<u8>,
    pub index_too_high: Vec<u8>,
    pub replica_too_many: Vec<u8>,
}

/// The rows of a table for each size.
pub fn each<T>(rows: fn(&Sample) -> Vec<T>) -> Vec<(&'static str, Vec<T>)> {
    samples().iter().map(|sample| (sample.name, rows(sample))).collect()
}

/// The smallest, a middle and the largest size.
fn samples() -> [Sample; 3] {
    [("smallest", 0, 1, 1), ("4 replicas, 8 ranges", 4, 9, 8), ("largest", 16, 65, 64)].map(|(name, r, v, g)| {
        let knowledge = Knowledge::filled(r, v, g);
        let whole = knowledge.bytes();
        let cut = whole[..whole.len() - 1].to_vec();
        let index_too_high = changed(&knowledge, Kind::Index, v as u32);
        let replica_too_many = changed(&knowledge, Kind::ReplicaCount, 17);
        Sample { name, knowledge, whole, cut, index_too_high, replica_too_many }
    })
}

/// The bytes with another number in the last field of a kind.
fn changed(knowledge: &Knowledge, kind: Kind, number: u32) -> Vec<u8> {
    let written = knowledge.write();
    let Field { start, size, .. } = *written.fields.iter().rfind(|field| field.kind == kind).expect("there is a field");
    let mut bytes = written.bytes;
    bytes[start..start + size].copy_from_slice(&number.to_be_bytes());
    bytes
}

pub fn check(sample: &Sample) -> Vec<Row> {
    let row = |name, number, knowledge: &[u8]| Row::new(name, number, Asked::Check { knowledge: knowledge.to_vec() });
    vec![
        row("accepted", 0, &sample.whole),
        row("cut by one byte", 1, &sample.cut),
        row("last index too high", 9, &sample.index_too_high),
        row("one replica too many", 3, &sample.replica_too_many),
    ]
}

impl Sample {
    /// The replica with the last key; in the smallest knowledge, one that it does not have.
    fn last_replica(&self) -> [u8; 16] {
        self.knowledge.replicas.last().copied().unwrap_or(replica_id(1))
    }

    /// The same known ticks with the replicas in the opposite order.
    pub fn reordered(&self) -> Knowledge {
        let mut other = self.knowledge.clone();
        other.replicas.reverse();
        for (key, _) in other.vectors.iter_mut().flatten() {
            *key = self.knowledge.replicas.len() as u32 - 1 - *key;
        }
        other
    }
}

pub fn contain(sample: &Sample) -> Vec<Row> {
    let tick = sample.knowledge.known(&LAST_ITEM, &sample.last_replica());
    let row = |name, number, knowledge: &[u8], item: &[u8], replica: &[u8]| {
        let asked = Asked::Contain {
            knowledge: knowledge.to_vec(),
            item: item.to_vec(),
            replica: replica.to_vec(),
            tick: tick.max(1),
        };
        Row::new(name, number, asked)
    };
    let last = &sample.last_replica();
    vec![
        row("last range, last replica", 0, &sample.whole, &LAST_ITEM, last),
        row("first range, first replica", 0, &sample.whole, &FIRST_ITEM, &replica_id(1)),
        row("a replica not in the map", 0, &sample.whole, &LAST_ITEM, &replica_id(99)),
        row("last index too high", 9, &sample.index_too_high, &LAST_ITEM, last),
        row("one replica too many", 3, &sample.replica_too_many, &LAST_ITEM, last),
        row("cut by one byte", 1, &sample.cut, &LAST_ITEM, last),
        row("item id too short", 17, &sample.whole, &LAST_ITEM[1..], last),
    ]
}

pub fn lead(sample: &Sample) -> Vec<Row> {
    let row = |name, number, first: &[u8], second: &[u8], replica: &[u8]| {
        let (first, second) = (first.to_vec(), second.to_vec());
        Row::new(name, number, Asked::Lead { first, second, item: LAST_ITEM.to_vec(), replica: replica.to_vec() })
    };
    let last = &sample.last_replica();
    let reordered = &sample.reordered().bytes();
    vec![
        row("last range, last replica", 0, &sample.whole, &sample.whole, last),
        row("the second's replicas reordered", 0, &sample.whole, reordered, last),
        row("first: last index too high", 9, &sample.index_too_high, &sample.whole, last),
        row("second: last index too high", 9, &sample.whole, &sample.index_too_high, last),
        row("first: one replica too many", 3, &sample.replica_too_many, &sample.whole, last),
        row("second: cut by one byte", 1, &sample.whole, &sample.cut, last),
        row("replica id too short", 17, &sample.whole, &sample.whole, &last[1..]),
    ]
}

pub fn cover(sample: &Sample) -> Vec<Row> {
    let row = |name, number, first: &[u8], second: &[u8], first_item: &[u8], last_item: &[u8]| {
        let (first, second) = (first.to_vec(), second.to_vec());
        let (first_item, last_item) = (first_item.to_vec(), last_item.to_vec());
        Row::new(name, number, Asked::Cover { first, second, first_item, last_item })
    };
    let whole = &sample.whole[..];
    let reordered = &sample.reordered().bytes()[..];
    let mut more = sample.knowledge.clone();
    if let Some((_, tick)) = more.vectors.last_mut().and_then(|vector| vector.last_mut()) {
        *tick += 1;
    }
    let mut shifted = sample.knowledge.clone();
    for (place, (bound, _)) in shifted.ranges.iter_mut().enumerate() {
        *bound = item_id(10 * place as u128);
    }
    let unlike = &shifted.bytes()[..];
    for (place, (bound, index)) in shifted.ranges.iter_mut().enumerate() {
        *bound = item_id(10 * place as u128 + 5);
        *index = 0;
    }
    let nothing = &shifted.bytes()[..];
    let middle = &item_id(sample.knowledge.ranges.len() as u128 / 2)[..];
    let all = [&FIRST_ITEM[..], &LAST_ITEM[..]];
    vec![
        row("yes, all ids, the same bytes", 0, whole, whole, all[0], all[1]),
        row("yes, all ids, the second's replicas reordered", 0, whole, reordered, all[0], all[1]),
        row("yes, all ids, no bound in common", 0, unlike, nothing, all[0], all[1]),
        row("all ids, the second knows more in the last range", 0, whole, &more.bytes(), all[0], all[1]),
        row("yes, one id", 0, whole, whole, middle, middle),
        row("first: last index too high", 9, &sample.index_too_high, whole, all[0], all[1]),
        row("second: last index too high", 9, whole, &sample.index_too_high, all[0], all[1]),
        row("first: one replica too many", 3, &sample.replica_too_many, whole, all[0], all[1]),
        row("second: cut by one byte", 1, whole, &sample.cut, all[0], all[1]),
        row("first id above last", 17, whole, whole, all[1], all[0]),
    ]
}
