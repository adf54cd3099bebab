//! Stores with any count of records, the same with one record more, and knowledges that contain any count of these.

use crate::knowledge::{Knowledge, item_id, replica_id};
use crate::record::{LIVE, Record, TOMBSTONE};
use crate::replication::ALL;
use crate::store::Store;

/// A store of so many records, changed at ticks from 1 on. From some record on the ticks begin anew, and each fourth record is a tombstone.
pub fn store_of(records: usize) -> Store {
    let own = replica_id(1);
    let record = |place: usize| {
        let kind = if place % 4 == 3 { TOMBSTONE } else { LIVE };
        let tag = if kind == LIVE { [1 + place as u8 % 9; 16] } else { [0; 16] };
        let tick = 1 + (place + records / 3) as u64 % records as u64;
        Record { kind, item: item_id(2 * place as u128 + 1), change: (own, tick), create: (own, 1), tag }
    };
    Store { own, knowledge: containing(records), records: (0..records).map(record).collect() }
}

/// The knowledge that contains so many of the change versions of such a store.
pub fn containing(records: usize) -> Knowledge {
    knowing([records as u64, 0])
}

/// Such a store with one record more, of a new item, which comes to stand at a place. Its change version has a tick of another replica.
pub fn with_one_more(store: &Store, place: usize, tick: u64) -> Store {
    let replica = replica_id(2);
    let (kind, tag) = if place % 3 == 1 { (TOMBSTONE, [0; 16]) } else { (LIVE, [9; 16]) };
    let item = item_id(2 * place as u128);
    let mut records = store.records.clone();
    records.insert(place, Record { kind, item, change: (replica, tick), create: (replica, 1), tag });
    Store { knowledge: knowing([store.records.len() as u64, tick]), records, ..*store }
}

/// The knowledge that contains so many of the change versions of a store, and one more record's where it has tick 1.
pub fn containing_tick_1(records: usize) -> Knowledge {
    knowing([records as u64, 1])
}

/// The knowledge of these ticks of replicas 1 and 2 for all items.
fn knowing(ticks: [u64; 2]) -> Knowledge {
    let replicas = [replica_id(1), replica_id(2)].into_iter().collect();
    Knowledge::with_ticks(ALL.into_iter().collect(), replicas, |_, replica| {
        ticks[usize::from(*replica == replica_id(2))]
    })
}

#[cfg(test)]
mod tests {
    use super::*;

    #[test]
    fn stores_are_valid_and_knowledges_contain_what_they_should() {
        for all in [0, 1, 2, 3, 16, 255, 256] {
            let store = store_of(all);
            assert!(store.is_valid(), "{all}");
            for contained in 0..=all {
                let [inside, count, _] = store.coverage(&containing(contained));
                assert_eq!([inside, count], [contained as u64, all as u64]);
            }
        }
    }

    #[test]
    fn one_more_is_a_record_of_a_new_item_contained_or_not() {
        for all in [0, 1, 2, 3, 16, 255] {
            let store = store_of(all);
            for place in 0..=all {
                for (tick, inside) in [(1, 1), (2, 0)] {
                    let after = with_one_more(&store, place, tick);
                    assert!(after.is_valid(), "{all}, {place}");
                    let mut others = after.clone();
                    assert_eq!(store.record(&others.records.remove(place).item), None);
                    assert_eq!(others.records, store.records);
                    let [contained, count, _] = after.coverage(&containing_tick_1(place));
                    assert_eq!([contained, count], [place as u64 + inside, all as u64 + 1]);
                }
            }
        }
    }

    /// Which numbers are the nearest, by hand: the paper's, the ends, thirds, halves.
    #[test]
    fn figures() {
        let by_hand = [
            (0, 0, 1000),
            (0, 1, 0),
            (1, 1, 1000),
            (1, 2, 500),
            (1, 3, 333),
            (2, 3, 667),
            (0, 16, 0),
            (1, 16, 63),
            (3, 16, 188),
            (7, 16, 438),
            (15, 16, 938),
            (16, 16, 1000),
            (1, 256, 4),
            (8, 256, 31),
            (16, 256, 63),
            (24, 256, 94),
            (255, 256, 996),
        ];
        for (contained, all, figure) in by_hand {
            let right = [contained as u64, all as u64, figure];
            assert_eq!(store_of(all).coverage(&containing(contained)), right);
        }
    }
}
