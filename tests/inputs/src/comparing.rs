//! Pairs of knowledges to compare, with the length of the output buffer.

use crate::calls::{faulty, spread};
use crate::edits::{boundary_values, damage};
use crate::families::shapes;
use crate::knowledge::Knowledge;
use crate::limits::{self, backwards};
use crate::merges::drawn_pair;
use crate::pairs;
use crate::splitmix::SplitMix64;
use crate::writing::Room;

/// The length of the longest result: a buffer that is never too short.
pub const LARGEST_COMPARISON: usize = 112;

/// A compare with its arguments as bytes, with or without fault.
#[derive(Clone, Copy, Debug, Hash)]
pub struct Comparing<'a> {
    pub first: &'a [u8],
    pub second: &'a [u8],
    pub room: Room,
}

/// Takes a compare with the name of its family. An error ends the run.
pub type Visit<'a> = dyn FnMut(&'static str, Comparing<'_>) -> Result<(), String> + 'a;

/// Buffers of many lengths, most of them long enough.
const ROOMS: [Room; 11] = [
    Room::More(0),
    Room::Bytes(LARGEST_COMPARISON),
    Room::Less(1),
    Room::More(0),
    Room::Bytes(LARGEST_COMPARISON + 9),
    Room::Bytes(0),
    Room::More(1),
    Room::Bytes(LARGEST_COMPARISON),
    Room::Bytes(55),
    Room::More(29),
    Room::Bytes(56),
];

/// Buffers of these lengths in turn.
#[derive(Default)]
struct Rooms(usize);

impl Rooms {
    fn next(&mut self) -> Room {
        self.0 += 1;
        ROOMS[self.0 % ROOMS.len()]
    }
}

/// Both ways round, in buffers of two lengths.
fn either_way(
    family: &'static str,
    [one, other]: [&[u8]; 2],
    rooms: &mut Rooms,
    visit: &mut Visit,
) -> Result<(), String> {
    visit(family, Comparing { first: one, second: other, room: rooms.next() })?;
    visit(family, Comparing { first: other, second: one, room: rooms.next() })
}

/// The compares that are the same in every run.
pub fn fixed(visit: &mut Visit) -> Result<(), String> {
    for knowledge in [Knowledge::filled(1, 2, 1), Knowledge::filled(2, 3, 3), Knowledge::largest()] {
        faults(&knowledge, visit)?;
    }
    damaged(visit)?;
    every_shape(visit)?;
    places(visit)?;
    drawn(visit)
}

/// Each fault of a knowledge in each argument, together with each fault in the other and a buffer that is too short or not.
fn faults(knowledge: &Knowledge, visit: &mut Visit) -> Result<(), String> {
    let mut knowledges = vec![knowledge.bytes(), Knowledge::smallest().bytes()];
    knowledges.extend(faulty(knowledge));
    for room in [Room::Bytes(LARGEST_COMPARISON), Room::Bytes(55), Room::Bytes(0)] {
        for first in &knowledges {
            for second in &knowledges {
                visit("faults", Comparing { first, second, room })?;
            }
        }
    }
    Ok(())
}

/// A knowledge cut anywhere, or with any field set to any of its boundary values, in each argument.
fn damaged(visit: &mut Visit) -> Result<(), String> {
    let written = Knowledge::filled(2, 3, 2).write();
    let other = &Knowledge::filled(3, 4, 3).bytes();
    let rooms = &mut Rooms::default();
    for n in 0..=written.bytes.len() {
        either_way("prefixes", [&written.bytes[..n], other], rooms, visit)?;
    }
    for (at, field) in written.fields.iter().enumerate() {
        for value in boundary_values(&written, at) {
            let mut bytes = written.bytes.clone();
            bytes[field.start..field.start + field.size].copy_from_slice(&value);
            either_way("fields", [&bytes, other], rooms, visit)?;
        }
    }
    Ok(())
}

/// Knowledges of many shapes, as they are, in normal form and with the same ticks in other bytes: each two.
fn every_shape(visit: &mut Visit) -> Result<(), String> {
    let random = &mut SplitMix64::new(31);
    let rooms = &mut Rooms::default();
    let mut all = Vec::new();
    for shape in shapes().iter().chain(&limits::unusual()) {
        all.extend([pairs::relaid(random, shape).bytes(), shape.normalised().bytes(), shape.bytes()]);
    }
    for first in &all {
        for second in &all {
            visit("shapes", Comparing { first, second, room: rooms.next() })?;
        }
    }
    Ok(())
}

/// One tick more at one replica in one range, and one tick more at another or the same place of the other knowledge, with its
/// replicas in the same order or the opposite one, and with one replica exchanged for a lower or a higher one.
fn places(visit: &mut Visit) -> Result<(), String> {
    const FAMILY: &str = "places";
    let rooms = &mut Rooms::default();
    let raised = |knowledge: &Knowledge, place: usize| {
        let mut raised = knowledge.clone();
        raised.vectors[1 + place / 3][place % 3].1 += 1;
        raised
    };
    for knowledge in spread() {
        for place in 0..18 {
            let one = &raised(&knowledge, place).bytes();
            either_way(FAMILY, [one, &knowledge.bytes()], rooms, visit)?;
            for other_place in 0..18 {
                let mut other = raised(&knowledge, other_place);
                either_way(FAMILY, [one, &other.bytes()], rooms, visit)?;
                either_way(FAMILY, [one, &backwards(&other).bytes()], rooms, visit)?;
                for id in [[0; 16], [0xee; 16]] {
                    other.replicas[other_place % 3] = id;
                    either_way(FAMILY, [one, &other.bytes()], rooms, visit)?;
                }
            }
        }
    }
    Ok(())
}

/// Two knowledges with the same replicas and bounds, and ticks that differ at few places: none and 1, or the two largest.
fn drawn(visit: &mut Visit) -> Result<(), String> {
    const LARGEST_TICK: u64 = i64::MAX as u64;
    const EACH: usize = 500;
    let random = &mut SplitMix64::new(32);
    let rooms = &mut Rooms::default();
    for (size, seldom) in [((1, 1), 2), ((4, 8), 40), ((16, 64), 1500)] {
        for ticks in [[0, 1], [LARGEST_TICK - 1, LARGEST_TICK], [0, LARGEST_TICK]] {
            for _ in 0..EACH {
                let [first, second] = drawn_pair(size, || {
                    let common = *random.choose(&ticks);
                    let differ = random.once_in(seldom);
                    if differ { [*random.choose(&ticks), *random.choose(&ticks)] } else { [common; 2] }
                });
                let second = if random.once_in(2) { backwards(&second) } else { second };
                visit("ticks", Comparing { first: &first.bytes(), second: &second.bytes(), room: rooms.next() })?;
            }
        }
    }
    Ok(())
}

/// `count` random compares, of two knowledges that are related to each other or near the limits, intact or not.
pub fn random(seed: u64, count: usize, visit: &mut Visit) -> Result<(), String> {
    const COMPARES_OF_A_PAIR: usize = 4;
    let random = &mut SplitMix64::new(seed);
    let mut pair = pairs::pair(random);
    let mut intact = [pair.0.bytes(), pair.1.bytes()];
    for k in 0..count {
        if k % COMPARES_OF_A_PAIR == 0 {
            pair = if random.once_in(16) { limits::pair(random) } else { pairs::pair(random) };
            intact = [pair.0.bytes(), pair.1.bytes()];
        }
        let [mut first, mut second] = intact.clone();
        let (damaged, family) = match random.below(8) {
            0 => (1, "random, the first knowledge damaged"),
            1 => (2, "random, the second knowledge damaged"),
            2 if random.once_in(2) => (3, "random, both knowledges damaged"),
            _ => (0, "random, intact"),
        };
        if damaged & 1 > 0 {
            damage(random, &pair.0, &mut first);
        }
        if damaged & 2 > 0 {
            damage(random, &pair.1, &mut second);
        }
        if random.once_in(2) {
            std::mem::swap(&mut first, &mut second);
        }
        visit(family, Comparing { first: &first, second: &second, room: *random.choose(&ROOMS) })?;
    }
    Ok(())
}
