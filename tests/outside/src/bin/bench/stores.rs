//! The stores and batches that are measured on.
//!
//! The smallest store is one that has made its first edit, the largest has every count at its limit. Each batch is all that the store of another
//! replica knows, of the same size, where every other record is a later one.

use inputs::{ALL, Batch, ItemId, Knowledge, ReplicaId, Store};

pub struct Sample {
    name: &'static str,
    pub store: Store,
    /// Its bytes and those of the batch, and these with the last record of no known kind.
    pub whole: Vec<u8>,
    pub broken: Vec<u8>,
    pub whole_batch: Vec<u8>,
    pub broken_batch: Vec<u8>,
}

impl Sample {
    /// The store or, where it can take in no replica more, one of its size with one replica less.
    pub fn with_room(&self) -> Store {
        let Store { knowledge, records, .. } = &self.store;
        Store::filled(knowledge.replicas.len().min(15), knowledge.ranges.len(), records.len())
    }
}

/// Something of each size: the smallest, a middle and the largest.
pub fn each<T>(of: fn(&Sample) -> T) -> Vec<(&'static str, T)> {
    let sizes = [("1 record", 1, 1, 1), ("4 replicas, 8 ranges, 32 records", 4, 8, 32), ("largest", 16, 64, 256)];
    let samples = sizes.map(|(name, r, g, n)| {
        let store = Store::filled(r, g, n);
        let (whole, whole_batch) = (store.bytes(), batch(&store).bytes());
        let broken = |bytes: &[u8]| {
            let mut bytes = bytes.to_vec();
            let kind = bytes.len() - 89;
            bytes[kind] = 3;
            bytes
        };
        let (broken, broken_batch) = (broken(&whole), broken(&whole_batch));
        Sample { name, store, whole, broken, whole_batch, broken_batch }
    });
    samples.iter().map(|sample| (sample.name, of(sample))).collect()
}

/// All that another replica knows whose store is as the given one, but half of its records are later.
pub fn batch(store: &Store) -> Batch {
    let mut other = store.clone();
    for record in other.records.iter_mut().step_by(2) {
        let known = |id: &[u8; 16]| store.knowledge.known(&record.item, id);
        let latest = store.knowledge.replicas.iter().map(|id| (known(id), *id)).max().expect("there is a replica");
        record.change = (latest.1, latest.0);
    }
    Batch::whole(&other)
}

/// What another replica makes for a store after it has taken in a later tick of a replica, in the ranges that are chosen
/// by their numbers: every other record there is later.
pub fn news(store: &Store, replica: ReplicaId, chosen: impl Fn(usize) -> bool) -> Batch {
    let known = &store.knowledge;
    let range = |item: &ItemId| known.ranges.iter().filter(|(bound, _)| bound <= item).count() - 1;
    let tick = known.largest_tick() + 1;
    let mut replicas = known.replica_set();
    replicas.insert(replica);
    let knowledge = Knowledge::with_ticks(known.bounds(), replicas, |item, id| {
        if *id == replica && chosen(range(item)) { tick } else { known.known(item, id) }
    });
    let mut other = Store { knowledge, ..store.clone() };
    let records = other.records.iter_mut().filter(|record| chosen(range(&record.item)));
    records.step_by(2).for_each(|record| record.change = (replica, tick));
    other.made(known, &ALL[0], &ALL[1]).expect("it has no more than the limits allow")
}

/// A replica that no store has.
pub const STRANGER: ReplicaId = [0x77; 16];

/// An item behind those of the largest store.
pub const ABSENT: u128 = 5000;
