//! Calls at the borders of the engine's shorter ways: of each border many inputs just on this side of it and just on the other.
//!
//! Where a knowledge is in normal form, where a span has all ids, where a replica has a tick, where a batch teaches nothing,
//! or where words, slots and places tell enough, the engine does less than the general work. A call must end the same there.

mod cover;
mod covered;
mod normal;
mod own;
mod slots;
mod spans;
mod words;

use crate::calls::Call;
use crate::changing::Changing;
use crate::knowledge::Knowledge;
use crate::meaning::ReplicaId;
use crate::plan::{CallInput, Plan};
use crate::reading::Reading;
use crate::splitmix::SplitMix64;
use crate::store::Store;
use crate::stores::{alike, records};
use crate::writing::{Room, Writing};
pub use words::{hash as vector_hash, word as vector_word};

/// A call of any row.
#[derive(Clone, Copy, Debug, Hash)]
pub enum AnyCall<'a> {
    Lookup(Call<'a>),
    Writing(Writing<'a>),
    Reading(Reading<'a>),
    Changing(Changing<'a>),
}

/// How a call ends.
#[derive(Clone, Copy, Debug, PartialEq, Eq)]
pub enum End {
    /// With any answer, or with a result for which the buffer is too short.
    Answer,
    /// With this answer.
    Says(&'static str),
    /// With this number.
    Refused(u32),
}

/// One side of a border, and how most calls there end.
#[derive(Clone, Copy, Debug)]
pub struct Side {
    pub name: &'static str,
    pub end: End,
}

/// Takes a call with the name of its side. An error ends the run.
pub type Visit<'a> = dyn FnMut(&'static str, AnyCall<'_>) -> Result<(), String> + 'a;

/// A border: its sides, and what draws some calls on them.
#[derive(Clone, Copy)]
pub struct Border {
    pub name: &'static str,
    pub sides: &'static [Side],
    draw: fn(&mut SplitMix64, &mut Visit) -> Result<(), String>,
}

/// All borders.
pub const BORDERS: [Border; 7] = [
    Border { name: "normal form", sides: &normal::SIDES, draw: normal::draw },
    Border { name: "all ids", sides: &spans::SIDES, draw: spans::draw },
    Border { name: "own tick", sides: &own::SIDES, draw: own::draw },
    Border { name: "learned covered", sides: &covered::SIDES, draw: covered::draw },
    Border { name: "words alike", sides: &words::SIDES, draw: words::draw },
    Border { name: "slots of ids", sides: &slots::SIDES, draw: slots::draw },
    Border { name: "cover by places", sides: &cover::SIDES, draw: cover::draw },
];

impl Border {
    pub fn named(name: &str) -> Option<Self> {
        BORDERS.into_iter().find(|border| border.name == name)
    }

    /// Hands out as many calls as the plan has inputs, up to the first error. The same plan always gives the same.
    pub fn try_for_each(
        &self,
        plan: &Plan,
        mut visit: impl FnMut(CallInput<AnyCall>) -> Result<(), String>,
    ) -> Result<(), String> {
        let random = &mut SplitMix64::new(plan.seed);
        let mut place = 0;
        while place < plan.inputs {
            (self.draw)(random, &mut |family, call| {
                place += 1;
                if place > plan.inputs { Ok(()) } else { visit(CallInput { place: place - 1, family, call }) }
            })?;
        }
        Ok(())
    }
}

const fn side(name: &'static str, end: End) -> Side {
    Side { name, end }
}

/// A normal form with replicas and ticks below 2^40, mostly a small one, seldom the largest.
fn normal_form(random: &mut SplitMix64) -> Knowledge {
    const FEW: usize = 12;
    loop {
        let mut knowledge = if random.once_in(400) { Knowledge::largest() } else { Knowledge::random(random) };
        if knowledge.ranges.len() > FEW && !random.once_in(4) {
            continue;
        }
        knowledge.vectors.iter_mut().flatten().for_each(|(_, tick)| *tick %= 1 << 40);
        let normal = knowledge.normalised().within();
        if let Some(normal) = normal.ok().filter(|normal| !normal.replicas.is_empty()) {
            return normal;
        }
    }
}

/// A replica that a knowledge does not have.
fn absent(random: &mut SplitMix64, knowledge: &Knowledge) -> ReplicaId {
    let mut id = random.bytes();
    while knowledge.replicas.contains(&id) {
        id = random.bytes();
    }
    id
}

/// A valid store with this knowledge, or this knowledge with a tick of the own replica, and some records.
fn store_knowing(random: &mut SplitMix64, knowledge: Knowledge) -> Store {
    let own = absent(random, &knowledge);
    let (own, knowledge) = match random.once_in(2) {
        true => with_own(random, &knowledge).unwrap_or((own, knowledge)),
        false => (own, knowledge),
    };
    let count = some_records(random);
    let records = records(random, &knowledge, count);
    Store { own, knowledge, records }
}

/// One of the replicas and the knowledge with one tick of it everywhere, if there are replicas and not too many ranges.
fn with_own(random: &mut SplitMix64, knowledge: &Knowledge) -> Option<(ReplicaId, Knowledge)> {
    if knowledge.replicas.is_empty() {
        return None;
    }
    let own = *random.choose(&knowledge.replicas);
    let tick = 1 + random.next_u64() % (1 << 40);
    Some((own, alike(knowledge, &own, tick).within().ok()?))
}

/// Few records mostly, as many as there can be seldom.
fn some_records(random: &mut SplitMix64) -> usize {
    if random.once_in(100) { 256 } else { random.below(5) }
}

/// A buffer that is just long enough, seldom one that is longer or too short.
fn room(random: &mut SplitMix64) -> Room {
    match random.below(16) {
        0 => Room::Less(1),
        1 => Room::More(random.between(1, 64)),
        _ => Room::More(0),
    }
}

#[cfg(test)]
mod tests;
