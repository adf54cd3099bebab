//! Calls that compare knowledges or look something up in them, with their arguments.

use crate::edits::{boundary_values, damage};
use crate::knowledge::{Knowledge, item_id, replica_id};
use crate::meaning::{FIRST_ITEM, ItemId, LAST_ITEM, item_before, next_item};
use crate::pairs;
use crate::splitmix::SplitMix64;

/// A call with its arguments as bytes, with or without fault.
#[derive(Clone, Copy, Debug, Hash)]
pub enum Call<'a> {
    Contain { knowledge: &'a [u8], item: &'a [u8], replica: &'a [u8], tick: u64 },
    Lead { first: &'a [u8], second: &'a [u8], item: &'a [u8], replica: &'a [u8] },
    Cover { first: &'a [u8], second: &'a [u8], first_item: &'a [u8], last_item: &'a [u8] },
}

/// Takes a call with the name of its family. An error ends the run.
pub type Visit<'a> = dyn FnMut(&'static str, Call<'_>) -> Result<(), String> + 'a;

const TICKS: [u64; 12] =
    [0, 1, 2, 1 << 32, 1 << 62, LARGEST - 1, LARGEST, 1 << 63, (1 << 63) + 1, u64::MAX >> 8, u64::MAX - 1, u64::MAX];
const LARGEST: u64 = i64::MAX as u64;

/// The calls that are the same in every run.
pub fn fixed(visit: &mut Visit) -> Result<(), String> {
    lengths(visit)?;
    ticks(visit)?;
    for knowledge in [Knowledge::filled(1, 2, 1), Knowledge::filled(2, 3, 3), Knowledge::largest()] {
        faults(&knowledge, visit)?;
    }
    damaged(visit)?;
    places(visit)?;
    spans(visit)
}

/// The first knowledge in place of each knowledge argument, with the other beside it, in each call.
fn each_argument(
    family: &'static str,
    knowledge: &[u8],
    other: &[u8],
    item: &[u8],
    replica: &[u8],
    visit: &mut Visit,
) -> Result<(), String> {
    visit(family, Call::Contain { knowledge, item, replica, tick: 1 })?;
    for (first, second) in [(knowledge, other), (other, knowledge)] {
        visit(family, Call::Lead { first, second, item, replica })?;
        visit(family, Call::Cover { first, second, first_item: item, last_item: item })?;
    }
    Ok(())
}

/// Ids of every length from 0 to 40.
fn lengths(visit: &mut Visit) -> Result<(), String> {
    const FAMILY: &str = "ids of every length";
    const LENGTHS: std::ops::RangeInclusive<usize> = 0..=40;
    let a = Knowledge::filled(2, 4, 3).bytes();
    let b = Knowledge::filled(3, 3, 3).bytes();
    // Behind the ids lie further bytes of the same sort; cut or longer, they begin as ids that the knowledges know.
    let mut item = [0; 40];
    item[23] = 1;
    let mut replica = [0; 40];
    replica[15] = 2;
    for n in LENGTHS {
        for m in LENGTHS {
            let (item, replica) = (&item[..n], &replica[..m]);
            visit(FAMILY, Call::Contain { knowledge: &a, item, replica, tick: 1 })?;
            visit(FAMILY, Call::Lead { first: &a, second: &b, item, replica })?;
            for last_byte in [0, 255] {
                let last_item = [last_byte; 40];
                visit(FAMILY, Call::Cover { first: &a, second: &b, first_item: item, last_item: &last_item[..m] })?;
            }
        }
    }
    Ok(())
}

/// Ticks at their ends, known and asked for.
fn ticks(visit: &mut Visit) -> Result<(), String> {
    const FAMILY: &str = "ticks";
    // A knowledge that knows one replica at a tick, below another replica in the map or above it.
    let knowing = |tick: Option<u64>, key: u32| {
        let mut knowledge = Knowledge::filled(2, 2, 1);
        knowledge.replicas.rotate_left(key as usize);
        knowledge.vectors[1] = tick.map(|tick| (key, tick)).into_iter().collect();
        knowledge.bytes()
    };
    let known = || std::iter::once(None).chain(TICKS.into_iter().filter(|tick| *tick <= LARGEST).map(Some));
    let (item, replica) = (item_id(5), replica_id(1));
    let (item, replica) = (&item[..], &replica[..]);
    for key in [0, 1] {
        for first_tick in known() {
            let first = &knowing(first_tick, key);
            for tick in TICKS {
                visit(FAMILY, Call::Contain { knowledge: first, item, replica, tick })?;
            }
            for second_tick in known() {
                let second = &knowing(second_tick, 0);
                visit(FAMILY, Call::Lead { first, second, item, replica })?;
                visit(FAMILY, Call::Cover { first, second, first_item: item, last_item: item })?;
            }
        }
    }
    Ok(())
}

/// A knowledge with each fault, from number 1 to number 10.
pub fn faulty(knowledge: &Knowledge) -> [Vec<u8>; 10] {
    let with = |change: &dyn Fn(&mut Knowledge)| {
        let mut knowledge = knowledge.clone();
        change(&mut knowledge);
        knowledge.bytes()
    };
    let whole = knowledge.bytes();
    let mut other_start = whole.clone();
    other_start[3] = 6;
    let last_range = knowledge.ranges.len() - 1;
    let last_vector = knowledge.vectors.len() - 1;
    [
        whole[..whole.len() - 1].to_vec(),
        other_start,
        with(&|knowledge| knowledge.replicas = (0..17).map(replica_id).collect()),
        with(&|knowledge| knowledge.vectors[0].push((0, 1))),
        with(&|knowledge| knowledge.replicas = vec![replica_id(7); 2]),
        with(&|knowledge| knowledge.vectors[last_vector][0].0 = knowledge.replicas.len() as u32),
        with(&|knowledge| knowledge.vectors[last_vector][0].1 = 1 << 63),
        with(&|knowledge| {
            knowledge.ranges.truncate(63);
            knowledge.ranges.push(knowledge.ranges[0]);
        }),
        with(&|knowledge| knowledge.ranges[last_range].1 = knowledge.vectors.len() as u32),
        [&whole[..], &[0]].concat(),
    ]
}

/// Each fault of a knowledge in each argument, together with each fault in every other argument.
fn faults(knowledge: &Knowledge, visit: &mut Visit) -> Result<(), String> {
    const FAMILY: &str = "faults";
    let mut knowledges = vec![knowledge.bytes()];
    knowledges.extend(faulty(knowledge));
    let (item, replica) = ([1; 25], [2; 17]);
    let items = [&item[..24], &item[..23], &item, &[]];
    let replicas = [&replica[..16], &replica[..15], &replica, &[]];
    for first in &knowledges {
        for item in items {
            for replica in replicas {
                visit(FAMILY, Call::Contain { knowledge: first, item, replica, tick: 1 })?;
                for second in &knowledges {
                    visit(FAMILY, Call::Lead { first, second, item, replica })?;
                }
            }
        }
        for second in &knowledges {
            let mut ends: Vec<_> = items.iter().flat_map(|from| items.map(|to| (*from, to))).collect();
            ends.push((&LAST_ITEM, &FIRST_ITEM));
            ends.push((&item[..24], &[0; 24]));
            for (first_item, last_item) in ends {
                visit(FAMILY, Call::Cover { first, second, first_item, last_item })?;
            }
        }
    }
    Ok(())
}

/// A knowledge cut anywhere, or with any field set to any of its boundary values, in each argument.
fn damaged(visit: &mut Visit) -> Result<(), String> {
    let written = Knowledge::filled(2, 3, 2).write();
    let other = Knowledge::filled(3, 4, 3).bytes();
    let (item, replica) = (item_id(1), replica_id(2));
    for n in 0..=written.bytes.len() {
        each_argument("prefixes", &written.bytes[..n], &other, &item, &replica, visit)?;
    }
    for (at, field) in written.fields.iter().enumerate() {
        for value in boundary_values(&written, at) {
            let mut bytes = written.bytes.clone();
            bytes[field.start..field.start + field.size].copy_from_slice(&value);
            each_argument("fields", &bytes, &other, &item, &replica, visit)?;
        }
    }
    Ok(())
}

/// Bounds of a knowledge, at most so many of them, with the ids next to them and the ends.
pub fn items(knowledge: &Knowledge, most: usize) -> Vec<ItemId> {
    let g = knowledge.ranges.len();
    let mut items = vec![FIRST_ITEM, LAST_ITEM];
    for (place, (bound, _)) in knowledge.ranges.iter().enumerate() {
        if place % g.div_ceil(most) == 0 || place + 1 == g {
            items.push(*bound);
            items.extend(next_item(bound));
            items.extend(item_before(bound));
        }
    }
    items.sort();
    items.dedup();
    items
}

/// Every replica, and one that is in no map, at and around the bounds of knowledges of many shapes.
fn places(visit: &mut Visit) -> Result<(), String> {
    const FAMILY: &str = "places";
    let random = &mut SplitMix64::new(6);
    for knowledge in crate::families::shapes() {
        let first = &knowledge.bytes();
        let other = pairs::relaid(random, &knowledge);
        let normal = knowledge.normalised();
        let second = &other.bytes();
        let third = &normal.bytes();
        let mut replicas = knowledge.replicas.clone();
        replicas.push([0xee; 16]);
        for item in &items(&knowledge, 5) {
            for replica in &replicas {
                let tick = knowledge.known(item, replica);
                for tick in [tick.saturating_sub(1), tick, tick + 1] {
                    visit(FAMILY, Call::Contain { knowledge: first, item, replica, tick })?;
                }
                visit(FAMILY, Call::Contain { knowledge: second, item, replica, tick })?;
                visit(FAMILY, Call::Contain { knowledge: third, item, replica, tick })?;
                visit(FAMILY, Call::Lead { first, second, item, replica })?;
                visit(FAMILY, Call::Lead { first: third, second: first, item, replica })?;
            }
        }
    }
    Ok(())
}

/// Three replicas and six unlike ranges, from the first item on, from a later one, and up to the last one.
pub fn spread() -> [Knowledge; 3] {
    let mut spread = Knowledge::filled(3, 7, 6);
    for (place, (bound, _)) in spread.ranges.iter_mut().enumerate() {
        *bound = item_id(4 * place as u128);
    }
    let mut late = spread.clone();
    for (place, (bound, _)) in late.ranges.iter_mut().enumerate() {
        *bound = [40 * (place as u8 + 1); 24];
    }
    let mut to_the_top = late.clone();
    to_the_top.ranges[5].0 = LAST_ITEM;
    [spread, late, to_the_top]
}

/// Every span between the bounds of a knowledge and the ids next to them, where the second knowledge knows one tick more, or
/// the first one less, in one range, at one replica.
fn spans(visit: &mut Visit) -> Result<(), String> {
    const FAMILY: &str = "spans";
    for knowledge in spread() {
        let items = items(&knowledge, 6);
        let whole = knowledge.bytes();
        let mut others = vec![whole.clone()];
        for vector in 1..7 {
            for key in [0, 2] {
                let mut other = knowledge.clone();
                other.vectors[vector][key].1 += 1;
                other.replicas.reverse();
                for (key, _) in other.vectors.iter_mut().flatten() {
                    *key = 2 - *key;
                }
                others.push(other.bytes());
                other.replicas[2 - key] = [0xee; 16];
                others.push(other.bytes());
            }
        }
        for other in &others {
            for first_item in &items {
                for last_item in &items {
                    visit(FAMILY, Call::Cover { first: &whole, second: other, first_item, last_item })?;
                    if first_item <= last_item {
                        visit(FAMILY, Call::Cover { first: other, second: &whole, first_item, last_item })?;
                    }
                }
            }
        }
    }
    Ok(())
}

/// `count` random calls, on knowledges of random shapes that are often related to each other, intact or not.
pub fn random(seed: u64, count: usize, visit: &mut Visit) -> Result<(), String> {
    const CALLS_OF_A_PAIR: usize = 15;
    let random = &mut SplitMix64::new(seed);
    let mut pair = pairs::pair(random);
    let mut intact = [pair.0.bytes(), pair.1.bytes()];
    for k in 0..count {
        if k % CALLS_OF_A_PAIR == 0 {
            pair = pairs::pair(random);
            intact = [pair.0.bytes(), pair.1.bytes()];
        }
        let knowledges = [&pair.0, &pair.1];
        let (item, replica) = pairs::place(random, knowledges);
        let mut arguments = Arguments {
            first: intact[0].clone(),
            second: intact[1].clone(),
            item: item.to_vec(),
            replica: replica.to_vec(),
            last_item: pairs::item(random, knowledges).to_vec(),
        };
        let choice = k % 3;
        let tick = tick(random, pair.0.known(&item, &replica));
        if choice == 2 {
            order_span(random, &mut arguments.item, &mut arguments.last_item);
        }
        let family = match random.below(8) {
            0 => {
                arguments.damage_knowledge(random, knowledges);
                "random, a knowledge damaged"
            }
            1 => {
                arguments.damage_id(random);
                "random, an id damaged"
            }
            2 if random.once_in(2) => {
                arguments.damage_knowledge(random, knowledges);
                if random.once_in(2) {
                    arguments.damage_knowledge(random, knowledges);
                } else {
                    arguments.damage_id(random);
                }
                "random, two arguments damaged"
            }
            _ => "random, intact",
        };
        visit(family, arguments.call(choice, tick))?;
    }
    Ok(())
}

/// The arguments of all calls.
struct Arguments {
    first: Vec<u8>,
    second: Vec<u8>,
    /// Also the first of a span.
    item: Vec<u8>,
    replica: Vec<u8>,
    last_item: Vec<u8>,
}

impl Arguments {
    fn call(&self, choice: usize, tick: u64) -> Call<'_> {
        let Self { first, second, item, replica, last_item } = self;
        match choice {
            0 => Call::Contain { knowledge: first, item, replica, tick },
            1 => Call::Lead { first, second, item, replica },
            _ => Call::Cover { first, second, first_item: item, last_item },
        }
    }

    fn damage_knowledge(&mut self, random: &mut SplitMix64, knowledges: [&Knowledge; 2]) {
        let which = random.below(2);
        let bytes = if which == 0 { &mut self.first } else { &mut self.second };
        damage(random, knowledges[which], bytes);
    }

    fn damage_id(&mut self, random: &mut SplitMix64) {
        let id = match random.below(3) {
            0 => &mut self.item,
            1 => &mut self.replica,
            _ => &mut self.last_item,
        };
        let byte = *random.choose(&[0, 1, 255]);
        id.resize(random.between(0, 40), byte);
    }
}

/// Mostly brings the ends of a span into order; sometimes it becomes one id, or reaches an end.
pub fn order_span(random: &mut SplitMix64, first: &mut Vec<u8>, last: &mut Vec<u8>) {
    match random.below(16) {
        0 => return,
        1 | 2 => last.clone_from(first),
        3 => *first = FIRST_ITEM.to_vec(),
        4 => *last = LAST_ITEM.to_vec(),
        5 => {
            *first = FIRST_ITEM.to_vec();
            *last = LAST_ITEM.to_vec();
        }
        _ => {}
    }
    if *first > *last {
        std::mem::swap(first, last);
    }
}

/// A tick to ask for: at or next to the known one, at an end, or any.
fn tick(random: &mut SplitMix64, known: u64) -> u64 {
    match random.below(8) {
        0 => *random.choose(&TICKS),
        1 => random.next_u64() >> random.below(64),
        2 => known.wrapping_sub(1),
        3 | 4 => known + 1,
        _ => known,
    }
}
