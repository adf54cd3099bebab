//! What is looked at after a list of calls: each replica against the history machine, batches applied in either order and twice, and how
//! far each record of a new item moved the figure of coverage.

use std::collections::BTreeSet;

use inputs::{Knowledge, LIVE, Record, SplitMix64, Store, TOMBSTONE, item_before, next_item};

use super::list::List;
use super::machine::Made;
use super::play::{World, Written, parts_of, written};
use crate::changing::Engine;
use crate::moves;
use crate::reading;

/// So many pairs of batches are tried after each list, and as many batches twice.
const PAIRS: usize = 4;

/// How often something was tried after a list.
#[derive(Clone, Copy, Debug, Default)]
pub struct Ended {
    /// Pairs, those of which all four applies succeed, and those of which each of the four changes the store too.
    pub pairs: usize,
    pub taken: usize,
    pub changing: usize,
    /// Batches twice, and those of which both applies succeed.
    pub twice: usize,
    pub twice_taken: usize,
}

/// Compares every replica with the history machine, after the list or its round.
pub fn compare(list: &List, world: &World, after: &str) -> Result<(), String> {
    for replica in 0..list.replicas.len() {
        one(list, world, replica).map_err(|error| format!("replica {replica} after the {after}: {error}"))?;
    }
    Ok(())
}

fn one(list: &List, world: &World, replica: usize) -> Result<(), String> {
    let store = Store::opened(world.store(replica)).ok_or("the store is not valid")?;
    let mut items: BTreeSet<_> = world.machine.places().iter().copied().collect();
    items.extend(store.knowledge.bounds());
    let neighbours: Vec<_> = items.iter().flat_map(|item| [next_item(item), item_before(item)]).flatten().collect();
    items.extend(neighbours);
    let ids: BTreeSet<_> = list.replicas.iter().map(|(id, _)| *id).chain(store.knowledge.replica_set()).collect();
    for item in &items {
        for id in &ids {
            let (known, right) = (store.knowledge.known(item, id), world.machine.known(replica, item, id));
            if known != right {
                return Err(format!("it knows tick {known} of {id:02x?} for item {item:02x?}, the machine {right}"));
            }
        }
    }
    let records: Vec<Record> = world.machine.records(replica).into_iter().map(record).collect();
    if store.records != records {
        return Err(format!("it has the records {:02x?}, the machine {records:02x?}", store.records));
    }
    Ok(())
}

/// The record of a version that was made.
fn record(made: &Made) -> Record {
    let (kind, tag) = made.tag.map_or((TOMBSTONE, [0; 16]), |tag| (LIVE, tag));
    Record { kind, item: made.item, change: (made.replica, made.tick), create: made.create, tag }
}

/// Applies pairs of batches in either order, and batches twice, on replicas of the list. The engine's results are also compared with the
/// reference's.
pub fn in_either_order(
    list: &List,
    world: &World,
    engine: &impl Engine,
    reference: &impl Engine,
) -> Result<Ended, String> {
    let apply = |store: &[u8], batch: &[u8]| -> Result<Written, String> {
        let found = written(|out, length| engine.apply(store, batch, out, length));
        let right = written(|out, length| reference.apply(store, batch, out, length));
        if found == right {
            Ok(found)
        } else {
            Err("after the list, engine and reference differ on an apply".to_owned())
        }
    };
    let mut ended = Ended::default();
    if world.batches.is_empty() {
        return Ok(ended);
    }
    let random = &mut SplitMix64::new(list.calls.len() as u64);
    let mut names: Vec<usize> = world.batches.keys().copied().collect();
    for _ in 0..PAIRS {
        let replica = random.below(list.replicas.len());
        let store = world.store(replica);
        // Batches that the replica takes, and that change it, are tried first.
        random.shuffle(&mut names);
        let mut draws = Vec::new();
        for name in names.iter().take(6) {
            let after = apply(store, &world.batches[name])?;
            let rank = after.as_ref().map_or(2, |after| usize::from(after == store));
            draws.push((rank, *name, after));
        }
        draws.sort_by_key(|(rank, ..)| *rank);
        let (_, first, after_first) = &draws[0];
        let (_, second, after_second) = draws.get(1).unwrap_or(&draws[0]);
        let names = format!("batches {first} and {second} on replica {replica}");
        let [first, second] = [first, second].map(|name| &world.batches[name]);

        ended.pairs += 1;
        if let (Ok(after_first), Ok(after_second)) = (after_first, after_second)
            && let (Ok(one), Ok(other)) = (apply(after_first, second)?, apply(after_second, first)?)
        {
            ended.taken += 1;
            let changes =
                [(store, &after_first[..]), (store, after_second), (after_first, &one), (after_second, &other)];
            ended.changing += usize::from(changes.iter().all(|(before, after)| before != after));
            if one != other {
                return Err(format!("{names} in either order end in unlike stores"));
            }
        }

        ended.twice += 1;
        if let Ok(once) = after_first
            && let Ok(twice) = apply(once, first)?
        {
            ended.twice_taken += 1;
            if twice != *once {
                return Err(format!("the first of {names}, applied twice, does not end as once"));
            }
        }
    }
    Ok(ended)
}

/// How often a call of a list added one record of a new item and changed no other.
#[derive(Clone, Copy, Debug, Default)]
pub struct Additions {
    pub by_edits: usize,
    pub by_applies: usize,
}

/// The record that the second store has more than the first; none where that is not all that differs in their records.
fn one_more<'a>(before: &'a [u8], after: &'a [u8]) -> Option<&'a [u8]> {
    let [[_, before], [_, after]] = [parts_of(before), parts_of(after)];
    let pairs = before.chunks(Record::LENGTH).zip(after.chunks(Record::LENGTH));
    let (same, rest) = after.split_at(Record::LENGTH * pairs.take_while(|(one, other)| one == other).count());
    let (new, rest) = rest.split_at_checked(Record::LENGTH)?;
    (rest == &before[same.len()..]).then_some(new)
}

/// Wherever a call added one record of a new item and changed no other: the figure of coverage before and after it, for three
/// knowledges. These are what the replica knew before, what another one knew, and nothing.
pub fn one_record_more(world: &World, engine: &impl reading::Engine) -> Result<Additions, String> {
    let nothing = Knowledge::smallest().bytes();
    let mut additions = Additions::default();
    for (replica, stores) in world.stores.iter().enumerate() {
        let others = &world.stores[(replica + 1) % world.stores.len()];
        for (place, pair) in stores.windows(2).enumerate() {
            let [before, after] = [&pair[0][..], &pair[1]];
            let Some(new) = one_more(before, after) else { continue };
            let ([own, table], [other, _]) = (parts_of(before), parts_of(&others[place.min(others.len() - 1)]));
            for knowledge in [own, other, &nothing] {
                moves::moved(engine, [before, after], table.len() / Record::LENGTH, knowledge)
                    .map_err(|error| format!("store {place} of replica {replica} and the next: {error}"))?;
            }
            let edited = Record::decoded(new).change.0 == before[1..17];
            *(if edited { &mut additions.by_edits } else { &mut additions.by_applies }) += 1;
        }
    }
    Ok(additions)
}
