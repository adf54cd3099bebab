//! Valid stores of many shapes, and random ones.

use std::collections::BTreeSet;

use crate::knowledge::{Knowledge, item_id, replica_id};
use crate::meaning::{FIRST_ITEM, ItemId, LAST_ITEM, ReplicaId, item_before, next_item};
use crate::record::{LIVE, Record, TOMBSTONE, Version};
use crate::splitmix::SplitMix64;
use crate::store::Store;

impl Store {
    /// `r` replicas, `g` unlike ranges and `n` records, of which one in three is a tombstone. The own replica has the first
    /// key. Without replicas there are no records, and one range.
    pub fn filled(r: usize, g: usize, n: usize) -> Self {
        let own = replica_id(1);
        if r == 0 {
            return Self::new(own);
        }
        // A knowledge that has the own replica only is the same in all ranges.
        let g = if r == 1 { 1 } else { g };
        Self::laid_out(own, r, (0..g).map(|k| item_id(4 * k as u128)), (0..n).map(|k| item_id(1 + k as u128)))
    }

    /// The same, from one replica on, with the records spread evenly over the ranges. The one replica is not the own one, which would
    /// have the same tick in all ranges.
    pub fn spread(r: usize, g: usize, n: usize) -> Self {
        let own = replica_id(if r == 1 { 77 } else { 1 });
        Self::laid_out(
            own,
            r,
            (0..g).map(|k| item_id((k * n.max(1)) as u128)),
            (0..n).map(|k| item_id((k * g) as u128)),
        )
    }

    /// `r` replicas, unlike ranges with these bounds and records of these items.
    fn laid_out(
        own: ReplicaId,
        r: usize,
        bounds: impl ExactSizeIterator<Item = ItemId>,
        items: impl Iterator<Item = ItemId>,
    ) -> Self {
        const OWN_TICK: u64 = 9000;
        let mut knowledge = Knowledge::filled(r, bounds.len() + 1, bounds.len());
        if knowledge.replicas[0] == own {
            knowledge.vectors.iter_mut().skip(1).for_each(|vector| vector[0].1 = OWN_TICK);
        }
        knowledge.ranges.iter_mut().zip(bounds).for_each(|((bound, _), item)| *bound = item);
        Self::knowing(own, knowledge, items)
    }

    /// This knowledge, and records of these items, whose versions it contains: they go through the replicas in turn, and one in
    /// three is a tombstone.
    pub fn knowing(own: ReplicaId, knowledge: Knowledge, items: impl Iterator<Item = ItemId>) -> Self {
        let record = |(place, item): (usize, ItemId)| {
            let version = |key: usize, less: u64| {
                let replica = knowledge.replicas[key % knowledge.replicas.len()];
                (replica, knowledge.known(&item, &replica).saturating_sub(less).max(1))
            };
            let change = version(place, place as u64 % 5);
            let mut create = version(place / 2, 7);
            create.1 = create.1.min(change.1);
            let live = place % 3 != 2;
            let tag = if live { [place as u8; 16] } else { [0; 16] };
            Record { kind: if live { LIVE } else { TOMBSTONE }, item, change, create, tag }
        };
        let records = items.enumerate().map(record).collect();
        Self { own, knowledge, records }
    }

    /// A random valid store, mostly a small one.
    pub fn random(random: &mut SplitMix64) -> Self {
        let mut knowledge = Knowledge::random(random).normalised();
        while knowledge.replicas.is_empty() && !random.once_in(8) {
            knowledge = Knowledge::random(random).normalised();
        }
        let own = match knowledge.replicas.len() {
            0 => random.bytes(),
            _ if random.once_in(4) => random.bytes(),
            _ => *random.choose(&knowledge.replicas),
        };
        let tick = match knowledge.largest_tick() {
            0 => 0,
            largest => *random.choose(&[largest, largest / 2 + 1, 1, 0]),
        };
        let Ok(knowledge) = alike(&knowledge, &own, tick).within() else { return Self::new(own) };
        let most = *random.choose(&[1, 3, 12, 40]);
        let count = if random.once_in(20) { 256 } else { random.between(most / 3, most) };
        let records = records(random, &knowledge, count);
        Self { own, knowledge, records }
    }
}

/// The knowledge in normal form with one tick of a replica for all items.
pub fn alike(knowledge: &Knowledge, own: &ReplicaId, tick: u64) -> Knowledge {
    let mut replicas = knowledge.replica_set();
    replicas.insert(*own);
    Knowledge::with_ticks(knowledge.bounds(), replicas, |item, replica| {
        if replica == own { tick } else { knowledge.known(item, replica) }
    })
}

/// At most so many records whose versions a knowledge contains, by rising item id.
pub fn records(random: &mut SplitMix64, knowledge: &Knowledge, count: usize) -> Vec<Record> {
    let style = random.below(3);
    let mut items = BTreeSet::new();
    for place in 0..count {
        items.insert(match style {
            0 => item_id(place as u128 + random.below(2) as u128),
            1 => item_near(random, knowledge),
            _ => {
                let mut item = item_near(random, knowledge);
                item[23] = item[23].wrapping_add(place as u8);
                item
            }
        });
    }
    items.into_iter().filter_map(|item| record(random, knowledge, item)).collect()
}

/// An item at a bound, next to one, at an end, or anywhere.
pub fn item_near(random: &mut SplitMix64, knowledge: &Knowledge) -> ItemId {
    let bound = random.choose(&knowledge.ranges).0;
    match random.below(8) {
        0 | 1 => bound,
        2 => next_item(&bound).unwrap_or(bound),
        3 => item_before(&bound).unwrap_or(bound),
        4 => *random.choose(&[FIRST_ITEM, LAST_ITEM]),
        5 => {
            let mut item = bound;
            item[*random.choose(&[0, 22, 23])] ^= 1 << random.below(8);
            item
        }
        _ => random.bytes(),
    }
}

/// A record of an item whose versions a knowledge contains, if it contains any.
pub fn record(random: &mut SplitMix64, knowledge: &Knowledge, item: ItemId) -> Option<Record> {
    let change = version(random, knowledge, &item)?;
    let mut create = version(random, knowledge, &item)?;
    if random.once_in(3) {
        create.0 = change.0;
    }
    create.1 = create.1.min(change.1);
    let kind = if random.once_in(3) { TOMBSTONE } else { LIVE };
    let tag = if kind == TOMBSTONE || random.once_in(8) { [0; 16] } else { random.bytes() };
    Some(Record { kind, item, change, create, tag })
}

/// A version of an item that a knowledge contains, if there is one.
fn version(random: &mut SplitMix64, knowledge: &Knowledge, item: &ItemId) -> Option<Version> {
    let known = knowledge.replicas.iter().map(|replica| (*replica, knowledge.known(item, replica)));
    let known: Vec<Version> = known.filter(|(_, tick)| *tick > 0).collect();
    if known.is_empty() {
        return None;
    }
    let (replica, tick) = *random.choose(&known);
    let tick = match random.below(4) {
        0 => 1,
        1 => 1 + random.next_u64() % tick,
        _ => tick,
    };
    Some((replica, tick))
}

/// Valid stores of many shapes, from the smallest to the largest.
pub fn shapes() -> Vec<Store> {
    let mut shapes: Vec<Store> = [
        (0, 1, 0),
        (1, 1, 0),
        (1, 1, 1),
        (2, 1, 2),
        (2, 3, 3),
        (3, 4, 5),
        (4, 8, 30),
        (16, 1, 16),
        (2, 64, 255),
        (16, 64, 0),
        (16, 64, 256),
    ]
    .map(|(r, g, n)| Store::filled(r, g, n))
    .into();
    // Another replica's, whose own is not among those that it knows, with an empty range.
    for (r, g, n) in [(2, 3, 3), (16, 4, 9), (15, 64, 70)] {
        let mut store = Store::filled(r, g, n);
        store.own = replica_id(77);
        let places = store.knowledge.bounds();
        let last = *places.last().expect("there is a range");
        store.knowledge = Knowledge::with_ticks(places, store.knowledge.replica_set(), |item, replica| {
            if *item == last { 0 } else { store.knowledge.known(item, replica) }
        });
        store.records.retain(|record| record.item < last);
        shapes.push(store);
    }
    shapes
}

#[cfg(test)]
mod tests {
    use super::*;

    #[test]
    fn they_are_valid() {
        for store in shapes() {
            assert!(store.is_valid(), "{store:?}");
            assert_eq!(Store::opened(&store.bytes()), Some(store));
        }
        let random = &mut SplitMix64::new(11);
        let mut records = 0;
        for _ in 0..1000 {
            let store = Store::random(random);
            assert!(store.is_valid(), "{store:?}");
            assert_eq!(Store::opened(&store.bytes()).as_ref(), Some(&store));
            records += store.records.len();
        }
        assert!(records > 5000, "{records}");
    }

    #[test]
    fn those_with_spread_records_are_valid() {
        for (r, g, n) in
            [(1, 1, 0), (1, 8, 32), (4, 1, 32), (4, 8, 0), (4, 8, 1), (4, 64, 32), (16, 8, 32), (4, 8, 256)]
        {
            let store = Store::spread(r, g, n);
            assert!(store.is_valid(), "{store:?}");
            let counts = (store.knowledge.replicas.len(), store.knowledge.ranges.len(), store.records.len());
            assert_eq!(counts, (r, g, n));
        }
    }

    #[test]
    fn the_longest() {
        assert_eq!(Store::filled(16, 64, 256).bytes().len(), Store::LONGEST);
    }
}
