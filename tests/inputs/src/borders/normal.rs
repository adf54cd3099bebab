//! Knowledges in normal form, and the same with one rule broken.

use super::{AnyCall, End, Side, Visit, absent, normal_form, room, side, store_knowing};
use crate::changing::Changing;
use crate::knowledge::{Knowledge, item_id};
use crate::meaning::{FIRST_ITEM, LAST_ITEM, next_item};
use crate::reading::Reading;
use crate::replication::ALL;
use crate::splitmix::SplitMix64;
use crate::store::{Batch, Store};
use crate::writing::Writing;

const NORMAL: &str = "normal";
const OPENED: &str = "normal, opened";
const REFUSED_IN_STORE: &str = "not normal, in a store";
const REFUSED_IN_BATCH: &str = "not normal, in a batch";

pub const SIDES: [Side; 16] = [
    side(NORMAL, End::Answer),
    side(OPENED, End::Answer),
    side(REFUSED_IN_STORE, End::Refused(15)),
    side(REFUSED_IN_BATCH, End::Refused(16)),
    side(BREACHES[0].0, End::Answer),
    side(BREACHES[1].0, End::Answer),
    side(BREACHES[2].0, End::Answer),
    side(BREACHES[3].0, End::Answer),
    side(BREACHES[4].0, End::Answer),
    side(BREACHES[5].0, End::Answer),
    side(BREACHES[6].0, End::Answer),
    side(BREACHES[7].0, End::Answer),
    side(BREACHES[8].0, End::Answer),
    side(BREACHES[9].0, End::Answer),
    side(BREACHES[10].0, End::Answer),
    side(BREACHES[11].0, End::Answer),
];

/// Breaks one rule of a normal form, if there is a place for that.
type Breach = fn(&mut SplitMix64, &mut Knowledge) -> Option<()>;

pub const BREACHES: [(&str, Breach); 12] = [
    ("neighbours with one vector", split_range),
    ("last range like the one before", |_, knowledge| {
        let last = knowledge.ranges.last()?.1;
        push_range(knowledge, last)
    }),
    ("a vector twice", vector_twice),
    ("a vector twice, in neighbours", |_, knowledge| {
        let last = knowledge.ranges.last()?.1;
        push_vector(knowledge, knowledge.vectors[last as usize].clone())?;
        push_range(knowledge, knowledge.vectors.len() as u32 - 1)
    }),
    ("a vector unused", |random, knowledge| {
        let key = random.below(knowledge.replicas.len()) as u32;
        push_vector(knowledge, vec![(key, 1 << 50)])
    }),
    ("an empty vector once more", |_, knowledge| {
        knowledge.ranges.last().filter(|(_, index)| *index > 0)?;
        push_vector(knowledge, Vec::new())?;
        push_range(knowledge, knowledge.vectors.len() as u32 - 1)
    }),
    ("ids not rising", |random, knowledge| {
        let at = random.below(knowledge.replicas.len().checked_sub(1).filter(|pairs| *pairs > 0)?);
        knowledge.replicas.swap(at, at + 1);
        Some(())
    }),
    ("an id unused", id_unused),
    ("vectors not in order of first use", |random, knowledge| {
        let first = 1 + random.below(knowledge.vectors.len().checked_sub(2).filter(|pairs| *pairs > 0)?) as u32;
        for (_, index) in knowledge.ranges.iter_mut().filter(|(_, index)| *index == first || *index == first + 1) {
            *index = 2 * first + 1 - *index;
        }
        Some(())
    }),
    ("keys not rising", |random, knowledge| {
        let elements = some_vector(random, knowledge, |vector| vector.len() > 1)?;
        let at = random.below(elements.len() - 1);
        elements.swap(at, at + 1);
        Some(())
    }),
    ("a tick of 0", tick_of_0),
    ("first bound above 0", |_, knowledge| {
        knowledge.ranges[0].0 = item_id(1);
        (knowledge.ranges.len() == 1 || knowledge.ranges[1].0 > item_id(1)).then_some(())
    }),
];

/// A vector for which something holds, if there is one.
fn some_vector<'a>(
    random: &mut SplitMix64,
    knowledge: &'a mut Knowledge,
    holds: impl Fn(&[(u32, u64)]) -> bool,
) -> Option<&'a mut Vec<(u32, u64)>> {
    let places: Vec<usize> = (1..knowledge.vectors.len()).filter(|place| holds(&knowledge.vectors[*place])).collect();
    if places.is_empty() { None } else { knowledge.vectors.get_mut(*random.choose(&places)) }
}

fn push_vector(knowledge: &mut Knowledge, vector: Vec<(u32, u64)>) -> Option<()> {
    knowledge.vectors.push(vector);
    (knowledge.vectors.len() <= 65).then_some(())
}

/// A range behind the last one.
fn push_range(knowledge: &mut Knowledge, index: u32) -> Option<()> {
    let last = knowledge.ranges.last()?.0;
    let bound = if index.is_multiple_of(2) { LAST_ITEM } else { next_item(&last)? };
    knowledge.ranges.push((bound, index));
    (last < bound && knowledge.ranges.len() <= 64).then_some(())
}

/// A range cut in two.
fn split_range(random: &mut SplitMix64, knowledge: &mut Knowledge) -> Option<()> {
    let at = random.below(knowledge.ranges.len());
    let (bound, index) = knowledge.ranges[at];
    let inside = next_item(&bound)?;
    knowledge.ranges.insert(at + 1, (inside, index));
    let apart = knowledge.ranges.get(at + 2).is_none_or(|(next, _)| inside < *next);
    (apart && knowledge.ranges.len() <= 64).then_some(())
}

/// A vector again as the last one, in a range of its own that is not beside the first.
fn vector_twice(random: &mut SplitMix64, knowledge: &mut Knowledge) -> Option<()> {
    let last = knowledge.ranges.last()?.1 as usize;
    let others: Vec<usize> = (1..knowledge.vectors.len()).filter(|place| *place != last).collect();
    if others.is_empty() {
        return None;
    }
    push_vector(knowledge, knowledge.vectors[*random.choose(&others)].clone())?;
    push_range(knowledge, knowledge.vectors.len() as u32 - 1)
}

/// An id before all others or behind them.
fn id_unused(random: &mut SplitMix64, knowledge: &mut Knowledge) -> Option<()> {
    let (front, back) = ([0; 16], [255; 16]);
    if random.once_in(2) {
        knowledge.replicas.first().filter(|id| **id > front)?;
        knowledge.replicas.insert(0, front);
        knowledge.vectors.iter_mut().flatten().for_each(|(key, _)| *key += 1);
    } else {
        knowledge.replicas.last().filter(|id| **id < back)?;
        knowledge.replicas.push(back);
    }
    (knowledge.replicas.len() <= 16).then_some(())
}

/// An element more that says nothing, or one that says nothing any longer.
fn tick_of_0(random: &mut SplitMix64, knowledge: &mut Knowledge) -> Option<()> {
    let r = knowledge.replicas.len();
    if random.once_in(2)
        && let Some(elements) = some_vector(random, knowledge, |vector| vector.len() < r)
    {
        let key = (0..).find(|key| elements.iter().all(|(other, _)| other != key))?;
        elements.push((key, 0));
        elements.sort_unstable();
    } else {
        let elements = some_vector(random, knowledge, |_| true)?;
        let at = random.below(elements.len());
        elements[at].1 = 0;
    }
    Some(())
}

/// A normal form with one rule broken, and the name of the breach.
pub fn broken(random: &mut SplitMix64, normal: &Knowledge) -> Option<(&'static str, Knowledge)> {
    let (name, breach) = random.choose(&BREACHES);
    let mut other = normal.clone();
    breach(random, &mut other).map(|()| (*name, other))
}

pub fn draw(random: &mut SplitMix64, visit: &mut Visit) -> Result<(), String> {
    const BROKEN: usize = 6;
    let normal = normal_form(random);
    let store = store_knowing(random, normal.clone()).bytes();
    for _ in 0..2 {
        called(random, NORMAL, &store, &normal, visit)?;
    }
    opened(random, OPENED, &normal, visit)?;
    for _ in 0..BROKEN {
        let Some((name, other)) = broken(random, &normal) else { continue };
        called(random, name, &store, &other, visit)?;
        if random.once_in(4) {
            opened(random, REFUSED_IN_STORE, &other, visit)?;
        }
    }
    Ok(())
}

/// Normalises the knowledge, or makes a batch for it.
fn called(
    random: &mut SplitMix64,
    side: &'static str,
    store: &[u8],
    knowledge: &Knowledge,
    visit: &mut Visit,
) -> Result<(), String> {
    let knowledge = &knowledge.bytes();
    let room = room(random);
    if random.once_in(2) {
        return visit(side, AnyCall::Writing(Writing::Normalise { knowledge, room }));
    }
    let first = if random.once_in(2) { FIRST_ITEM } else { random.bytes() };
    visit(side, AnyCall::Changing(Changing::Make { store, knowledge, first_item: &first, last_item: &LAST_ITEM, room }))
}

/// The knowledge as that of a store, or as one of those of a batch. It is refused there, unless it is in normal form.
fn opened(random: &mut SplitMix64, side: &'static str, knowledge: &Knowledge, visit: &mut Visit) -> Result<(), String> {
    let (knowledge, none) = (knowledge.clone(), Knowledge::smallest());
    if random.once_in(2) {
        let store = Store { own: absent(random, &knowledge), knowledge, records: Vec::new() }.bytes();
        return visit(side, AnyCall::Reading(Reading::Knowledge { store: &store }));
    }
    let (needed, learned) = if random.once_in(2) { (knowledge, none) } else { (none, knowledge) };
    let batch = Batch { first: ALL[0], last: ALL[1], needed, learned, records: Vec::new() }.bytes();
    let side = if side == REFUSED_IN_STORE { REFUSED_IN_BATCH } else { side };
    visit(side, AnyCall::Reading(Reading::Learned { batch: &batch }))
}
