//! Batches that teach a store nothing, and batches that teach it one thing.

use super::{AnyCall, End, Side, Visit, absent, normal_form, room, side, some_records, store_knowing};
use crate::changing::Changing;
use crate::knowledge::Knowledge;
use crate::meaning::{ItemId, LAST_ITEM, ReplicaId, item_before};
use crate::pairs::lower;
use crate::replication::ALL;
use crate::splitmix::SplitMix64;
use crate::store::{Batch, Store};
use crate::stores::records;

const EQUAL: &str = "equal bytes";
const COVERED: &str = "covered";
const FIRST: &str = "one tick more in the first range";
const MIDDLE: &str = "one tick more in a middle range";
const LAST: &str = "one tick more in the last range";
const REPLICA: &str = "one replica more";
const OWN: &str = "one tick of its own more";
const NEEDED: &str = "one tick needed";

pub const SIDES: [Side; 8] = [
    side(EQUAL, End::Answer),
    side(COVERED, End::Answer),
    side(FIRST, End::Answer),
    side(MIDDLE, End::Answer),
    side(LAST, End::Answer),
    side(REPLICA, End::Answer),
    side(OWN, End::Refused(18)),
    side(NEEDED, End::Refused(18)),
];

pub fn draw(random: &mut SplitMix64, visit: &mut Visit) -> Result<(), String> {
    let known = normal_form(random);
    let store = store_knowing(random, known);
    let bytes = &store.bytes();
    for side in SIDES {
        let Some(batch) = batch(random, side.name, &store) else { continue };
        let (batch, room) = (&batch.bytes(), room(random));
        visit(side.name, AnyCall::Changing(Changing::Apply { store: bytes, batch, room }))?;
    }
    Ok(())
}

/// A batch on a side of the border, if the store has a place for it.
fn batch(random: &mut SplitMix64, side: &str, store: &Store) -> Option<Batch> {
    let known = &store.knowledge;
    let last = known.ranges.len() - 1;
    let at = match side {
        FIRST => 0,
        MIDDLE => 1 + random.below(last.checked_sub(1).filter(|middle| *middle > 0)?),
        LAST => last,
        _ => random.below(last + 1),
    };
    let other = *random.choose(&known.replicas);
    let (learned, needed) = match side {
        EQUAL => (known.clone(), Knowledge::smallest()),
        COVERED => (lowered(random, known), needed(random, known)),
        REPLICA => (with_one_more(known, at, absent(random, known))?, needed(random, known)),
        OWN => (with_one_more(known, at, store.own)?, Knowledge::smallest()),
        _ if other == store.own => return None,
        NEEDED => (known.clone(), with_one_more(known, at, other)?),
        _ => (with_one_more(known, at, other)?, needed(random, known)),
    };
    let [first, last] = if side == EQUAL { ALL } else { span(random, known, at) };
    let learned = if [first, last] == ALL { learned } else { learned.projected(&first, &last).within().ok()? };
    let count = some_records(random);
    let mut records = records(random, &learned, count);
    records.retain(|record| {
        let (replica, tick) = record.change;
        !needed.contains(&record.item, &replica, tick)
    });
    Some(Batch { first, last, needed, learned, records })
}

/// A part of what the store knows, which the batch builds on.
fn needed(random: &mut SplitMix64, known: &Knowledge) -> Knowledge {
    match random.below(3) {
        0 => known.clone(),
        1 => lowered(random, known),
        _ => Knowledge::smallest(),
    }
}

fn lowered(random: &mut SplitMix64, known: &Knowledge) -> Knowledge {
    let mut other = known.clone();
    lower(random, &mut other);
    other.normalised()
}

/// The same with one tick more of a replica in one range.
fn with_one_more(known: &Knowledge, at: usize, replica: ReplicaId) -> Option<Knowledge> {
    let mut other = known.clone();
    let key = other.replicas.iter().position(|id| *id == replica).unwrap_or(other.replicas.len()) as u32;
    if key as usize == other.replicas.len() {
        other.replicas.push(replica);
    }
    let mut vector = other.vectors[other.ranges[at].1 as usize].clone();
    match vector.iter_mut().find(|(other, _)| *other == key) {
        Some((_, tick)) => *tick += 1,
        None => vector.push((key, 1)),
    }
    other.ranges[at].1 = other.vectors.len() as u32;
    other.vectors.push(vector);
    other.normalised().within().ok()
}

/// All ids, or those of some ranges around one.
fn span(random: &mut SplitMix64, known: &Knowledge, at: usize) -> [ItemId; 2] {
    if random.once_in(2) {
        return ALL;
    }
    let first = known.ranges[random.below(at + 1)].0;
    let behind = known.ranges.get(random.between(at + 1, known.ranges.len()));
    [first, behind.and_then(|(bound, _)| item_before(bound)).unwrap_or(LAST_ITEM)]
}
