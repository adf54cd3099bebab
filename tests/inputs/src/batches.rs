//! Valid batches for a store, and random ones.

use std::collections::BTreeSet;

use crate::calls::order_span;
use crate::knowledge::{Knowledge, item_id, replica_id};
use crate::meaning::{ItemId, LAST_ITEM};
use crate::pairs;
use crate::record::{Record, TOMBSTONE};
use crate::replication::ALL;
use crate::splitmix::SplitMix64;
use crate::store::{Batch, Store};
use crate::stores::{alike, item_near, record};

impl Batch {
    /// All of a store for a replica that knows nothing.
    pub fn whole(store: &Store) -> Self {
        let [first, last] = ALL;
        store.made(&Knowledge::smallest(), &first, &last).expect("it has no more than the store")
    }

    /// A random valid batch, most often one that the store takes and that changes it.
    pub fn random(random: &mut SplitMix64, store: &Store) -> Self {
        let [mut first, mut last] = [(); 2].map(|()| item_near(random, &store.knowledge).to_vec());
        order_span(random, &mut first, &mut last);
        if first > last || random.once_in(3) {
            (first, last) = (ALL[0].to_vec(), ALL[1].to_vec());
        }
        let [first, last] = [first, last].map(|id| ItemId::try_from(id).expect("24 bytes"));
        let learned = learned(random, store).projected(&first, &last);
        let learned = learned.within().unwrap_or_else(|_| Knowledge::smallest());
        let needed = needed(random, store, &learned);
        let records = records(random, store, &needed, &learned, &first, &last);
        Self { first, last, needed, learned, records }
    }
}

/// What the maker knew: what the store knows with more and less of it, seldom something else.
fn learned(random: &mut SplitMix64, store: &Store) -> Knowledge {
    let mut learned = match random.below(8) {
        0 => Knowledge::random(random),
        1 => store.knowledge.merged(&Knowledge::random(random)),
        2 => store.knowledge.clone(),
        _ => pairs::relaid(random, &store.knowledge),
    };
    match random.below(4) {
        0 => pairs::lower(random, &mut learned),
        1 | 2 => raise(random, &mut learned),
        _ => {}
    }
    for _ in 0..random.between(0, 4) {
        pairs::change(random, &mut learned);
    }
    if random.once_in(8) {
        return learned.normalised();
    }
    // Other replicas know no later tick of the store's own.
    let own = store.knowledge.known(&ALL[0], &store.own);
    alike(&learned, &store.own, *random.choose(&[own, own, own.saturating_sub(1), 0]))
}

/// Raises about a third of the ticks a little.
fn raise(random: &mut SplitMix64, knowledge: &mut Knowledge) {
    for (_, tick) in knowledge.vectors.iter_mut().flatten() {
        if random.once_in(3) {
            *tick = (*tick + random.between(1, 3) as u64).min(i64::MAX as u64);
        }
    }
}

/// What the batch builds on: mostly something that the store knows.
fn needed(random: &mut SplitMix64, store: &Store, learned: &Knowledge) -> Knowledge {
    let mut needed = match random.below(8) {
        0..=2 => return Knowledge::smallest(),
        3 => return store.knowledge.clone(),
        4 => Knowledge::random(random),
        5 => learned.clone(),
        _ => store.knowledge.clone(),
    };
    if random.once_in(8) {
        pairs::change(random, &mut needed);
    } else {
        pairs::lower(random, &mut needed);
    }
    needed.normalised().within().unwrap_or_else(|_| Knowledge::smallest())
}

/// Records that learned contains and needed lacks, many of them of items that the store has.
fn records(
    random: &mut SplitMix64,
    store: &Store,
    needed: &Knowledge,
    learned: &Knowledge,
    first: &ItemId,
    last: &ItemId,
) -> Vec<Record> {
    let mut items: BTreeSet<ItemId> = store.records.iter().map(|record| record.item).collect();
    for _ in 0..random.between(0, 6) {
        items.insert(item_near(random, learned));
    }
    let keep = random.between(1, 4);
    let mut records = Vec::new();
    for item in items.into_iter().filter(|item| first <= item && item <= last) {
        let held = store.record(&item).filter(|held| {
            let contained = [held.change, held.create].iter().all(|(id, tick)| learned.contains(&item, id, *tick));
            contained && random.once_in(3)
        });
        let found = match held {
            // The same change version, perhaps with another content.
            Some(held) => {
                let mut record = held.clone();
                if record.kind != TOMBSTONE {
                    record.tag[3] ^= random.below(2) as u8;
                }
                Some(record)
            }
            None => record(random, learned, item),
        };
        let found = found.filter(|record| !needed.contains(&item, &record.change.0, record.change.1));
        records.extend(found.filter(|_| !random.once_in(keep + 1)));
    }
    records.truncate(256);
    records
}

/// Stores with valid batches of many shapes for each.
pub fn shapes() -> Vec<(Store, Batch)> {
    let mut shapes = Vec::new();
    for (r, g, n) in [(1, 1, 1), (2, 3, 3), (4, 8, 30), (16, 64, 256)] {
        let store = Store::filled(r, g, n);
        shapes.push((store.clone(), Batch::whole(&store)));
        shapes.push((Store::new(replica_id(99)), Batch::whole(&store)));
        let middle = item_id(2 * g as u128);
        for (first, last) in [(item_id(1), middle), (middle, middle), (item_id(3), LAST_ITEM)] {
            if let Ok(batch) = store.made(&Knowledge::smallest(), &first, &last) {
                shapes.push((store.clone(), batch));
            }
            if let Ok(batch) = store.made(&store.knowledge, &first, &last) {
                shapes.push((store.clone(), batch));
            }
        }
    }
    let random = &mut SplitMix64::new(12);
    for store in crate::stores::shapes() {
        for _ in 0..3 {
            let batch = Batch::random(random, &store);
            shapes.push((store.clone(), batch));
        }
    }
    shapes
}

#[cfg(test)]
mod tests {
    use super::*;

    #[test]
    fn they_are_valid_and_often_taken() {
        for (store, batch) in shapes() {
            assert!(store.is_valid() && batch.is_valid());
            assert_eq!(Batch::opened(&batch.bytes()), Some(batch));
        }
        let random = &mut SplitMix64::new(13);
        let (mut taken, mut changed, mut refused) = (0, 0, 0);
        for _ in 0..1000 {
            let store = Store::random(random);
            let batch = Batch::random(random, &store);
            assert!(batch.is_valid(), "{batch:?}");
            match store.applied(&batch) {
                Ok(after) => {
                    assert!(after.is_valid(), "{after:?}");
                    taken += 1;
                    changed += usize::from(after.records != store.records);
                }
                Err(_) => refused += 1,
            }
        }
        assert!(taken > 400 && changed > 200 && refused > 50, "{taken} {changed} {refused}");
    }
}
