//! Stores and batches whose results are at the limits of ticks, replicas, ranges and records, or beyond, alone and together.

use crate::changing::{Changing, TAG, Visit};
use crate::knowledge::{Knowledge, item_id, replica_id};
use crate::meaning::{FIRST_ITEM, ItemId, LAST_ITEM};
use crate::record::{LIVE, Record, TOMBSTONE};
use crate::replication::ALL;
use crate::splitmix::SplitMix64;
use crate::store::{Batch, Store};
use crate::writing::Room;

const REPLICAS: usize = 16;
const RANGES: usize = 64;
const RECORDS: usize = 256;
const LARGEST_TICK: u64 = i64::MAX as u64;

const ROOMS: [Room; 3] = [Room::More(0), Room::Less(1), Room::Bytes(0)];

/// The calls that are the same in every run.
pub fn fixed(visit: &mut Visit) -> Result<(), String> {
    changed(visit)?;
    made(visit)?;
    applied(visit)
}

/// Ticks, replicas and records at their limits, for items that are absent, live and tombstones.
fn changed(visit: &mut Visit) -> Result<(), String> {
    const FAMILY: &str = "changes at the limits";
    for largest in [5000, LARGEST_TICK - 1, LARGEST_TICK] {
        for replicas in REPLICAS - 2..=REPLICAS {
            for records in RECORDS - 1..=RECORDS {
                for own_is_known in [true, false] {
                    for own_is_largest in [true, false] {
                        let mut store = Store::filled(replicas, 5, records);
                        store.knowledge = with_largest(&store, largest, own_is_largest);
                        if !own_is_known {
                            store.own = [0x77; 16];
                        }
                        let store = &store.bytes();
                        // Live, a tombstone, absent between two, absent behind all.
                        for item in [item_id(1), item_id(3), FIRST_ITEM, LAST_ITEM] {
                            for room in ROOMS {
                                let item = &item;
                                visit(FAMILY, Changing::Edit { store, item, tag: &TAG, room })?;
                                visit(FAMILY, Changing::Delete { store, item, room })?;
                            }
                        }
                    }
                }
            }
        }
    }
    Ok(())
}

/// The store's knowledge with the own replica's tick, or the last replica's in the last range, raised to a number.
fn with_largest(store: &Store, largest: u64, own: bool) -> Knowledge {
    let mut knowledge = store.knowledge.clone();
    if own {
        knowledge.vectors.iter_mut().skip(1).for_each(|vector| vector[0].1 = largest);
    } else if let Some((_, tick)) = knowledge.vectors.last_mut().and_then(|vector| vector.last_mut()) {
        *tick = largest;
    }
    knowledge
}

/// Needed and learned knowledges of about 64 ranges.
fn made(visit: &mut Visit) -> Result<(), String> {
    for ranges in RANGES - 2..=RANGES {
        let store = &Store::filled(2, ranges, 40).bytes();
        let late = Knowledge::late_start();
        let mut fewer = Knowledge::late_start();
        fewer.ranges.pop();
        let ends = [FIRST_ITEM, item_id(1), item_id(4), item_id(7)];
        let last = item_id(4 * ranges as u128);
        for knowledge in [Knowledge::smallest(), fewer, late, Knowledge::largest()] {
            let knowledge = &knowledge.bytes();
            for first_item in &ends {
                for last_item in [item_id(9), last, LAST_ITEM] {
                    for room in ROOMS {
                        let last_item = &last_item;
                        let call = Changing::Make { store, knowledge, first_item, last_item, room };
                        visit("made at the limits", call)?;
                    }
                }
            }
        }
    }
    Ok(())
}

/// A store and a batch that have together so many replicas (three or more), ranges and records, each about half of them. The store is the
/// first replica's.
pub fn together(replicas: usize, ranges: usize, records: usize) -> (Store, Batch) {
    let ids: Vec<_> = (1..=replicas as u128).map(replica_id).collect();
    let (here, there) = ids.split_at(replicas.div_ceil(2));
    let knowing = |ids: &[[u8; 16]], bounds: Vec<ItemId>, own: bool| {
        Knowledge::with_ticks(bounds.iter().copied().collect(), ids.iter().copied().collect(), |item, id| {
            let place = bounds.partition_point(|bound| bound <= item) as u64;
            if own && *id == ids[0] { 900 } else { 10 * place + u64::from(id[15]) * u64::from(place > 0) }
        })
    };
    let there_ranges = ranges / 2;
    let here_bounds = (0..ranges - there_ranges).map(|k| item_id(8 * k as u128)).collect();
    let there_bounds = (0..there_ranges).map(|k| item_id(8 * k as u128 + 4)).collect();
    let record = |replica: [u8; 16], item: u128, place: usize| Record {
        kind: if place % 4 == 3 { TOMBSTONE } else { LIVE },
        item: item_id(item),
        change: (replica, 3),
        create: (replica, 1),
        tag: if place % 4 == 3 { [0; 16] } else { [place as u8; 16] },
    };
    let there_records = records / 2;
    let held = (0..records - there_records).map(|k| record(here[0], 2 * k as u128, k));
    let knowledge = knowing(here, here_bounds, true);
    let store = Store { own: here[0], knowledge, records: held.collect() };
    let [first, last] = ALL;
    let learned = knowing(there, there_bounds, false);
    let brought = there.first().map(|id| (0..there_records).map(|k| record(*id, 2 * k as u128 + 5, k)).collect());
    let batch = Batch { first, last, needed: Knowledge::smallest(), learned, records: brought.unwrap_or_default() };
    (store, batch)
}

/// The batch with a needed knowledge that no store here knows.
fn needing(batch: &Batch) -> Batch {
    let mut needed = Knowledge::a();
    needed.replicas = vec![[0x99; 16]];
    Batch { needed, ..batch.clone() }
}

/// Replicas, ranges and records of a store and a batch together at their limits, also where the batch cannot be taken.
fn applied(visit: &mut Visit) -> Result<(), String> {
    for replicas in [4, REPLICAS - 1, REPLICAS, REPLICAS + 1, REPLICAS + 9] {
        for ranges in [4, RANGES - 1, RANGES, RANGES + 1, RANGES + 9] {
            for records in [4, RECORDS - 1, RECORDS, RECORDS + 1, RECORDS + 9] {
                let (store, batch) = together(replicas, ranges, records);
                let ahead = Batch { learned: store.knowledge.clone(), records: Vec::new(), ..batch.clone() };
                let other = Store { own: replica_id(2), ..store.clone() };
                let store = &store.bytes();
                let (taken, refused) = (&batch.bytes(), &needing(&batch).bytes());
                for room in ROOMS {
                    visit("applied at the limits", Changing::Apply { store, batch: taken, room })?;
                    visit("applied at the limits", Changing::Apply { store, batch: refused, room })?;
                }
                let batch = &ahead.bytes();
                visit("applied at the limits", Changing::Apply { store: &other.bytes(), batch, room: Room::More(0) })?;
            }
        }
    }
    Ok(())
}

/// Batches that need one tick more than the store knows in one range, at one replica; those whose span leaves that out; and those that have
/// learned of one more own tick.
pub fn not_covered(visit: &mut Visit) -> Result<(), String> {
    const FAMILY: &str = "not covered";
    let store = Store::filled(3, 5, 12);
    let bytes = &store.bytes();
    let other = Store { own: [0x55; 16], ..store.clone() };
    for (bound, _) in &store.knowledge.ranges {
        for replica in store.knowledge.replicas.iter().chain([&[0x44; 16]]) {
            for more in [0, 1] {
                let places = store.knowledge.bounds();
                let mut replicas = store.knowledge.replica_set();
                replicas.insert(*replica);
                let raised = Knowledge::with_ticks(places, replicas, |item, id| {
                    store.knowledge.known(item, id) + if item == bound && id == replica { more } else { 0 }
                });
                for (first, last) in [(FIRST_ITEM, LAST_ITEM), (item_id(4), item_id(7)), (item_id(5), item_id(16))] {
                    let learned = store.knowledge.projected(&first, &last);
                    let batch = Batch { first, last, needed: raised.clone(), learned, records: Vec::new() };
                    let learned = raised.projected(&first, &last);
                    let ahead = Batch { needed: Knowledge::smallest(), learned, ..batch.clone() };
                    for batch in [batch, ahead] {
                        let batch = &batch.bytes();
                        visit(FAMILY, Changing::Apply { store: bytes, batch, room: Room::More(0) })?;
                        visit(FAMILY, Changing::Apply { store: &other.bytes(), batch, room: Room::Bytes(0) })?;
                    }
                }
            }
        }
    }
    Ok(())
}

/// A random store and batch that have together about as much as the limits allow.
pub fn pair(random: &mut SplitMix64) -> (Store, Batch) {
    let replicas = if random.once_in(2) { random.between(2, 14) } else { random.between(REPLICAS - 1, REPLICAS + 2) };
    let ranges = if random.once_in(2) { random.between(1, 40) } else { random.between(RANGES - 2, RANGES + 3) };
    let records = if random.once_in(2) { random.between(0, 60) } else { random.between(RECORDS - 2, RECORDS + 3) };
    together(replicas, ranges, records)
}

#[cfg(test)]
mod tests {
    use super::*;

    #[test]
    fn they_have_together_what_they_should() {
        for replicas in [4, 15, 16, 17] {
            for ranges in [2, 63, 64, 65] {
                for records in [2, 255, 256, 257] {
                    let (store, batch) = together(replicas, ranges, records);
                    assert!(store.is_valid() && batch.is_valid(), "{replicas} {ranges} {records}");
                    let right = match (replicas, ranges, records) {
                        (17.., _, _) => Some(11),
                        (_, 65.., _) => Some(12),
                        (_, _, 257..) => Some(13),
                        _ => None,
                    };
                    assert_eq!(store.applied(&batch).err(), right, "{replicas} {ranges} {records}");
                }
            }
        }
    }
}
