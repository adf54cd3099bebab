//! Changes of stores whose owner has a tick, at any place of the map, and of stores whose owner has none.

use super::{AnyCall, End, Side, Visit, normal_form, room, side, some_records};
use crate::changing::{Changing, TAG};
use crate::knowledge::Knowledge;
use crate::meaning::{ItemId, ReplicaId};
use crate::record::{LIVE, Record};
use crate::splitmix::SplitMix64;
use crate::store::Store;
use crate::stores::{alike, item_near, records};

const LARGEST: u64 = i64::MAX as u64;

pub const SIDES: [Side; 12] = [
    side("first of the map", End::Answer),
    side("in the middle", End::Answer),
    side("in the middle, not where its key says", End::Answer),
    side("last of the map", End::Answer),
    side("last of the map, not where its key says", End::Answer),
    side("alone", End::Answer),
    side("largest tick but one", End::Answer),
    side("largest tick", End::Refused(20)),
    side("no tick, below all ids", End::Answer),
    side("no tick, between ids", End::Answer),
    side("no tick, above all ids", End::Answer),
    side("no tick, and 16 replicas", End::Refused(11)),
];

pub fn draw(random: &mut SplitMix64, visit: &mut Visit) -> Result<(), String> {
    let Some(store) = store(random) else { return Ok(()) };
    let (side, bytes) = (side_of(&store), &store.bytes());
    for _ in 0..4 {
        let room = room(random);
        let live: Vec<&Record> = store.records.iter().filter(|record| record.kind == LIVE).collect();
        if !live.is_empty() && random.once_in(2) {
            let item = &random.choose(&live).item;
            visit(side, AnyCall::Changing(Changing::Delete { store: bytes, item, room }))?;
        } else {
            let item = &item(random, &store);
            visit(side, AnyCall::Changing(Changing::Edit { store: bytes, item, tag: &TAG, room }))?;
        }
    }
    // An item that is absent or a tombstone is not deleted.
    if random.once_in(8) {
        let (item, room) = (item_near(random, &store.knowledge), room(random));
        visit(side, AnyCall::Changing(Changing::Delete { store: bytes, item: &item, room }))?;
    }
    Ok(())
}

/// An item of the store, or one near a bound.
fn item(random: &mut SplitMix64, store: &Store) -> ItemId {
    match store.records.len() {
        0 => item_near(random, &store.knowledge),
        _ if random.once_in(2) => item_near(random, &store.knowledge),
        n => store.records[random.below(n)].item,
    }
}

/// A valid store with an owner of any sort.
fn store(random: &mut SplitMix64) -> Option<Store> {
    let knowledge = match random.below(12) {
        0 => alone(random),
        1 | 2 => whole(random, 16),
        3..=5 => {
            let r = random.between(2, 8);
            whole(random, r)
        }
        _ => normal_form(random),
    };
    let own = owner(random, &knowledge);
    let highest = 1 + knowledge.largest_tick();
    let mut tick = *random.choose(&[1, highest / 2 + 1, highest, highest + 1]);
    let mut knowledge = knowledge;
    if random.once_in(4) {
        let largest = LARGEST - random.below(2) as u64;
        if random.once_in(2) && knowledge.replicas.contains(&own) {
            tick = largest;
        } else {
            let vector = knowledge.vectors.last_mut().filter(|vector| !vector.is_empty())?;
            let at = random.below(vector.len());
            vector[at].1 = largest;
        }
    }
    let knowledge = match knowledge.replicas.contains(&own) {
        true => alike(&knowledge, &own, tick).within().ok()?,
        false => knowledge,
    };
    let count = some_records(random);
    let records = records(random, &knowledge, count);
    Some(Store { own, knowledge, records })
}

/// What a replica knows that has heard of no other.
fn alone(random: &mut SplitMix64) -> Knowledge {
    let mut knowledge = Knowledge::a();
    knowledge.replicas[0] = random.bytes();
    knowledge
}

/// Few ranges, each with a tick of each replica.
fn whole(random: &mut SplitMix64, r: usize) -> Knowledge {
    let g = random.between(1, 4);
    let mut knowledge = Knowledge::filled(r, g + 1, g);
    knowledge.replicas.iter_mut().for_each(|id| id[0] = 7);
    knowledge
}

/// The first, a middle or the last replica, or an id that is not in the map, before all, between two or behind all.
fn owner(random: &mut SplitMix64, knowledge: &Knowledge) -> ReplicaId {
    let replicas = &knowledge.replicas;
    match random.below(12) {
        0 | 1 => replicas[0],
        2..=5 => *random.choose(replicas),
        6 => replicas[replicas.len() - 1],
        7 => [0; 16],
        8 => [255; 16],
        // Just behind one of them.
        _ => (u128::from_be_bytes(replicas[random.below(replicas.len().div_ceil(2))]) | 1 << random.below(8))
            .to_be_bytes(),
    }
}

/// The side that a store is on.
fn side_of(store: &Store) -> &'static str {
    let Store { own, knowledge, .. } = store;
    let replicas = &knowledge.replicas;
    let key = replicas.iter().position(|id| id == own);
    let below = replicas.iter().filter(|id| *id < own).count();
    let there = |key: usize| {
        let mut vectors = knowledge.vectors[1..].iter();
        vectors.all(|vector| vector.get(key).is_some_and(|(other, _)| *other as usize == key))
    };
    let place = match (knowledge.largest_tick(), key) {
        (LARGEST, _) => 7,
        (_, None) if replicas.len() == 16 => 11,
        (tick, _) if tick == LARGEST - 1 => 6,
        (_, None) if below == 0 => 8,
        (_, None) if below < replicas.len() => 9,
        (_, None) => 10,
        (_, Some(_)) if replicas.len() == 1 => 5,
        (_, Some(0)) => 0,
        (_, Some(key)) => {
            let base = if key + 1 == replicas.len() { 3 } else { 1 };
            base + usize::from(!there(key))
        }
    };
    SIDES[place].name
}
