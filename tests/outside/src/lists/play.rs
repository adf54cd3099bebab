//! Playing a list of calls: each call on the engine and on the reference, and what was not refused on the history machine.

use std::collections::BTreeMap;

use inputs::{Batch, ItemId, Knowledge, Store};

use super::limits::Limits;
use super::list::{Call, Given, List};
use super::machine::Machine;
use crate::buffer;
use crate::changing::Engine;
use crate::tally::{Outcome, Tally};
use crate::writing::{WRITTEN, in_room};

/// The bytes of a result, or the number of its refusal.
pub type Written = Result<Vec<u8>, u32>;

/// Where a list of calls has come to.
pub struct World {
    /// The stores that each replica has had, the present one last.
    pub stores: Vec<Vec<Vec<u8>>>,
    pub batches: BTreeMap<usize, Vec<u8>>,
    pub machine: Machine,
    pub limits: Limits,
}

impl World {
    pub fn store(&self, replica: usize) -> &[u8] {
        self.stores[replica].last().expect("there is a first one")
    }

    /// The bytes of the knowledge that a make is given; none where it names a batch that was not made.
    fn given(&self, given: &Given) -> Option<Vec<u8>> {
        match given {
            Given::Nothing => Some(Knowledge::smallest().bytes()),
            Given::Of(replica, ago) => {
                let stores = &self.stores[*replica];
                let store = &stores[stores.len() - 1 - (*ago).min(stores.len() - 1)];
                Some(parts_of(store)[0].to_vec())
            }
            Given::Learned(batch) => {
                let batch = self.batches.get(batch)?;
                Some(part(batch, Batch::HEADER + number(batch, 49), number(batch, 53)))
            }
            Given::Bytes(bytes) => Some(bytes.clone()),
        }
    }
}

fn number(bytes: &[u8], at: usize) -> usize {
    u32::from_be_bytes(bytes[at..at + 4].try_into().expect("four bytes")) as usize
}

/// A store's own knowledge and its table of records.
pub fn parts_of(store: &[u8]) -> [&[u8]; 2] {
    store[Store::HEADER..].split_at(number(store, 17)).into()
}

fn part(bytes: &[u8], at: usize, length: usize) -> Vec<u8> {
    bytes[at..at + length].to_vec()
}

/// What a call writes into a buffer that is never too short.
pub fn written(call: impl FnOnce(&mut [u8], &mut u64) -> u32) -> Written {
    let mut out = vec![0; Batch::LONGEST];
    let mut length = 0;
    match call(&mut out, &mut length) {
        0 => Ok(out[..length as usize].to_vec()),
        number => Err(number),
    }
}

/// The name of a call and how it ended; none for a call that is left out.
pub type End = Option<(&'static str, Outcome)>;

/// Plays a list of calls, without the round that comes after them. The error says at which call what went wrong.
pub fn play(list: &List, engine: &impl Engine, reference: &impl Engine, tally: &mut Tally) -> Result<World, String> {
    let mut world = start(list, reference)?;
    let ends = play_on(&mut world, 0, &list.calls, engine, reference)?;
    for (call, end) in list.calls.iter().zip(ends) {
        if let Some((name, outcome)) = end {
            tally.add(name, outcome);
            world.limits.add(call.replica(), name, outcome);
        }
    }
    Ok(world)
}

/// Plays calls that come after so many others. The error says at which call what went wrong.
pub fn play_on(
    world: &mut World,
    before: usize,
    calls: &[Call],
    engine: &impl Engine,
    reference: &impl Engine,
) -> Result<Vec<End>, String> {
    let mut ends = Vec::new();
    for (place, call) in (before..).zip(calls) {
        let mut player = Player { place, world, engine, reference };
        let ended = player.call(call).map_err(|error| format!("call {place}, {call}: {error}"))?;
        if let Some((_, Outcome::Other(number @ (15 | 16)))) = ended {
            return Err(format!(
                "call {place}, {call}: refused with {number}, though every store and batch of a list is valid"
            ));
        }
        ends.push(ended);
    }
    Ok(ends)
}

/// The spans of all makes, those of the round too, as far as they are spans.
fn spans(list: &List) -> impl Iterator<Item = (ItemId, ItemId)> {
    list.all_calls().filter_map(|call| match call {
        Call::Make { first, last, .. } => {
            let (first, last) = (ItemId::try_from(&first[..]).ok()?, ItemId::try_from(&last[..]).ok()?);
            (first <= last).then_some((first, last))
        }
        _ => None,
    })
}

fn start(list: &List, reference: &impl Engine) -> Result<World, String> {
    let mut stores = Vec::new();
    for (id, tick) in &list.replicas {
        let new = written(|out, length| reference.new_store(id, out, length));
        let new = new.map_err(|number| format!("new is refused with {number}"))?;
        stores.push(vec![if *tick == 0 { new } else { prepared(id, *tick).bytes() }]);
    }
    let machine = Machine::new(&list.replicas, spans(list));
    Ok(World { stores, batches: BTreeMap::new(), machine, limits: Limits::default() })
}

/// A store that knows a tick of its own replica for all items and has no records.
fn prepared(id: &[u8; 16], tick: u64) -> Store {
    let knowledge =
        Knowledge { replicas: vec![*id], vectors: vec![vec![], vec![(0, tick)]], ranges: vec![([0; 24], 1)] };
    Store { own: *id, knowledge, records: Vec::new() }
}

struct Player<'a, E, R> {
    place: usize,
    world: &'a mut World,
    engine: &'a E,
    reference: &'a R,
}

impl<E: Engine, R: Engine> Player<'_, E, R> {
    /// Plays a call and gives how it ended.
    fn call(&mut self, call: &Call) -> Result<End, String> {
        let (engine, reference) = (self.engine, self.reference);
        let (name, written, knowledge) = match call {
            Call::Edit { replica, item, tag, room } => {
                let store = self.world.store(*replica);
                let result = written(|out, length| reference.edit(store, item, tag, out, length));
                let (answer, room) = in_room(result.as_deref().map_err(|number| *number), *room);
                let engine = |[store, item, tag]: [&[u8]; 3], out: &mut [u8], length: &mut u64| {
                    engine.edit(store, item, tag, out, length)
                };
                buffer::compare(self.place, [store, item, tag], room, answer, engine)?;
                let written = answer.map(<[u8]>::to_vec);
                if written.is_ok() {
                    self.world.machine.change(*replica, id(item), Some(id(tag)));
                }
                ("edit", self.keep(*replica, written), Vec::new())
            }
            Call::Delete { replica, item, room } => {
                let store = self.world.store(*replica);
                let result = written(|out, length| reference.delete(store, item, out, length));
                let (answer, room) = in_room(result.as_deref().map_err(|number| *number), *room);
                let engine = |[store, item]: [&[u8]; 2], out: &mut [u8], length: &mut u64| {
                    engine.delete(store, item, out, length)
                };
                buffer::compare(self.place, [store, item], room, answer, engine)?;
                let written = answer.map(<[u8]>::to_vec);
                if written.is_ok() {
                    self.world.machine.change(*replica, id(item), None);
                }
                ("delete", self.keep(*replica, written), Vec::new())
            }
            Call::Make { replica, batch, given, first, last, room } => {
                let Some(knowledge) = self.world.given(given) else { return Ok(None) };
                let store = self.world.store(*replica);
                let result = written(|out, length| reference.make(store, &knowledge, [first, last], out, length));
                let (answer, room) = in_room(result.as_deref().map_err(|number| *number), *room);
                let engine = |[store, knowledge, from, to]: [&[u8]; 4], out: &mut [u8], length: &mut u64| {
                    engine.make(store, knowledge, [from, to], out, length)
                };
                buffer::compare(self.place, [store, &knowledge, first, last], room, answer, engine)?;
                let written = answer.map(<[u8]>::to_vec);
                if let Ok(bytes) = &written {
                    self.world.batches.insert(*batch, bytes.clone());
                    self.world.machine.make(*replica, *batch, id(first), id(last));
                }
                ("make", written.map(|_| WRITTEN), knowledge)
            }
            Call::Apply { replica, batch, room } => {
                let Some(bytes) = self.world.batches.get(batch) else { return Ok(None) };
                let store = self.world.store(*replica);
                let result = written(|out, length| reference.apply(store, bytes, out, length));
                let (answer, room) = in_room(result.as_deref().map_err(|number| *number), *room);
                let engine = |[store, batch]: [&[u8]; 2], out: &mut [u8], length: &mut u64| {
                    engine.apply(store, batch, out, length)
                };
                buffer::compare(self.place, [store, bytes], room, answer, engine)?;
                let written = answer.map(<[u8]>::to_vec);
                if written.is_ok() {
                    self.world.machine.apply(*replica, *batch);
                }
                ("apply", self.keep(*replica, written), Vec::new())
            }
        };
        Ok(Some((name, Outcome::of(written, &knowledge))))
    }

    /// Keeps the store that a replica has from now on, if there is one.
    fn keep(&mut self, replica: usize, written: Written) -> Result<&'static str, u32> {
        self.world.stores[replica].push(written?);
        Ok(WRITTEN)
    }
}

/// An id or tag of a call that was not refused.
fn id<const N: usize>(bytes: &[u8]) -> [u8; N] {
    bytes.try_into().expect("other lengths are refused")
}
