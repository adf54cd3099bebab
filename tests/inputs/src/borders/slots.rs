//! Stores and batches with replicas whose ids fall into one slot, and records of replicas that seem to be in the map.

use std::collections::BTreeSet;

use super::{AnyCall, End, Side, Visit, room, side};
use crate::changing::{Changing, TAG};
use crate::knowledge::{Knowledge, item_id};
use crate::meaning::ReplicaId;
use crate::reading::Reading;
use crate::replication::ALL;
use crate::splitmix::SplitMix64;
use crate::store::{Batch, Store};
use crate::stores::{item_near, records};
use crate::worst::{first_replica_missing, used_twice};

const UNKNOWN_IN_STORE: &str = "not in the map but in the slot, in a store";
const UNKNOWN_IN_BATCH: &str = "not in the map but in the slot, in a batch";
const LATER_IN_STORE: &str = "one tick too late, in a store";
const LATER_IN_BATCH: &str = "one tick too late, in a batch";
const BACKWARDS: &str = "one slot, vectors used backwards";

/// Ids of one sort, and the side of stores with such ids.
const SORTS: [&str; 4] =
    ["same first and last byte", "unlike in one middle byte", "one slot by unlike ends", "a slot for each id"];

pub const SIDES: [Side; 9] = [
    side(SORTS[0], End::Answer),
    side(SORTS[1], End::Answer),
    side(SORTS[2], End::Answer),
    side(SORTS[3], End::Answer),
    side(BACKWARDS, End::Answer),
    side(UNKNOWN_IN_STORE, End::Refused(15)),
    side(UNKNOWN_IN_BATCH, End::Refused(16)),
    side(LATER_IN_STORE, End::Refused(15)),
    side(LATER_IN_BATCH, End::Refused(16)),
];

pub fn draw(random: &mut SplitMix64, visit: &mut Visit) -> Result<(), String> {
    let sort = random.below(SORTS.len());
    let base = random.bytes();
    let r = if random.once_in(4) { 16 } else { random.between(1, 15) };
    let mut ids = BTreeSet::new();
    while ids.len() <= r {
        ids.insert(id(random, sort, &base, ids.len()));
    }
    let mut ids: Vec<ReplicaId> = ids.into_iter().collect();
    let own = ids.remove(random.below(r + 1));
    let (knowledge, backwards) = knowing(random, ids);
    let count = if random.once_in(100) { 256 } else { random.between(1, 6) };
    let records = records(random, &knowledge, count);
    let store = Store { own, knowledge, records };
    let side = if backwards && sort < 3 { BACKWARDS } else { SORTS[sort] };
    for _ in 0..4 {
        called(random, side, &store, visit)?;
    }
    refused(random, &store, visit)
}

/// An id of a sort, the `n`-th one.
fn id(random: &mut SplitMix64, sort: usize, base: &ReplicaId, n: usize) -> ReplicaId {
    let mut id = *base;
    match sort {
        0 => id[1..15].copy_from_slice(&random.bytes::<14>()),
        1 => id[1 + usize::from(base[0]) % 14] = random.byte(),
        2 => {
            id[0] = random.byte();
            id[15] = base[0].wrapping_add(base[15]).wrapping_sub(id[0]);
        }
        _ => id[15] = base[15].wrapping_add(n as u8),
    }
    id
}

/// A normal form with these replicas, and whether vectors are used again backwards.
fn knowing(random: &mut SplitMix64, replicas: Vec<ReplicaId>) -> (Knowledge, bool) {
    let g = if random.once_in(50) { 64 } else { random.between(1, 8) };
    let (backwards, twice) = (random.once_in(2), g >= 4 && random.once_in(2));
    let mut knowledge = match twice {
        true => used_twice(replicas.len(), g, backwards),
        false => Knowledge::filled(replicas.len(), g + 1, g),
    };
    if replicas.len() > 1 && random.once_in(3) {
        knowledge = first_replica_missing(&knowledge);
    }
    (Knowledge { replicas, ..knowledge }, twice && backwards)
}

/// A call that opens the store, or a batch of all of it.
fn called(random: &mut SplitMix64, side: &'static str, store: &Store, visit: &mut Visit) -> Result<(), String> {
    let (bytes, [first, last]) = (&store.bytes(), ALL);
    let knowledge = &store.knowledge.bytes();
    let batch = &Batch {
        first,
        last,
        needed: Knowledge::smallest(),
        learned: store.knowledge.clone(),
        records: store.records.clone(),
    }
    .bytes();
    let (item, room) = (&item_near(random, &store.knowledge), room(random));
    let call = match random.below(8) {
        0 | 1 => AnyCall::Reading(Reading::Knowledge { store: bytes }),
        2 => AnyCall::Reading(Reading::Winner { store: bytes, batch, item }),
        3 => AnyCall::Reading(Reading::Learned { batch }),
        4 => AnyCall::Reading(Reading::Coverage { store: bytes, knowledge }),
        5 => {
            let (first_item, last_item) = (&first, &last);
            AnyCall::Changing(Changing::Make { store: bytes, knowledge, first_item, last_item, room })
        }
        6 => AnyCall::Changing(Changing::Apply { store: bytes, batch, room }),
        // Where there are 16 replicas, there is no room for the own one.
        _ if store.knowledge.replicas.len() == 16 => AnyCall::Reading(Reading::Learned { batch }),
        _ => AnyCall::Changing(Changing::Edit { store: bytes, item, tag: &TAG, room }),
    };
    visit(side, call)
}

/// The store, and a batch of all of it, with a record whose version is not known.
fn refused(random: &mut SplitMix64, store: &Store, visit: &mut Visit) -> Result<(), String> {
    let mut store = store.clone();
    let Some(at) = store.records.len().checked_sub(1).map(|last| random.between(0, last)) else { return Ok(()) };
    let unknown = random.once_in(2);
    let record = &mut store.records[at];
    if unknown {
        // The own replica has no tick; its id is of the same sort as the others.
        record.change.0 = store.own;
    } else {
        record.change.1 = 1 + store.knowledge.known(&record.item, &record.change.0);
    }
    let [in_store, in_batch] =
        if unknown { [UNKNOWN_IN_STORE, UNKNOWN_IN_BATCH] } else { [LATER_IN_STORE, LATER_IN_BATCH] };
    visit(in_store, AnyCall::Reading(Reading::Knowledge { store: &store.bytes() }))?;
    let Store { knowledge: learned, records, .. } = store;
    let batch = &Batch { first: ALL[0], last: ALL[1], needed: Knowledge::smallest(), learned, records }.bytes();
    if random.once_in(2) {
        return visit(in_batch, AnyCall::Reading(Reading::Learned { batch }));
    }
    let empty = &Store::new([9; 16]).bytes();
    visit(in_batch, AnyCall::Reading(Reading::Winner { store: empty, batch, item: &item_id(1) }))
}
