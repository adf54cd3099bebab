//! Calls that write a knowledge, with their arguments and the length of the output buffer.

use crate::calls::{faulty, items, order_span, spread};
use crate::edits::{boundary_values, damage};
use crate::families::shapes;
use crate::knowledge::{Knowledge, item_id};
use crate::limits;
use crate::meaning::{FIRST_ITEM, LAST_ITEM};
use crate::merges;
use crate::pairs;
use crate::splitmix::SplitMix64;

/// The length of the longest knowledge: a buffer that is never too short.
pub const LONGEST: usize = 14_933;

/// How long an output buffer is.
#[derive(Clone, Copy, Debug, Hash, PartialEq, Eq)]
pub enum Room {
    Bytes(usize),
    /// As long as the result and so many bytes more.
    More(usize),
    /// As long as the result but so many bytes.
    Less(usize),
}

impl Room {
    /// The length of the buffer for a result of a length. Where the call is refused whatever the buffer, the longest
    /// result takes the place of its result.
    pub fn length(self, result: Option<usize>) -> usize {
        let result = result.unwrap_or(LONGEST);
        match self {
            Self::Bytes(length) => length,
            Self::More(more) => result + more,
            Self::Less(less) => result.saturating_sub(less),
        }
    }
}

/// A call with its arguments as bytes, with or without fault.
#[derive(Clone, Copy, Debug, Hash)]
pub enum Writing<'a> {
    Normalise { knowledge: &'a [u8], room: Room },
    Merge { first: &'a [u8], second: &'a [u8], room: Room },
    Project { knowledge: &'a [u8], first_item: &'a [u8], last_item: &'a [u8], room: Room },
}

/// Takes a call with the name of its family. An error ends the run.
pub type Visit<'a> = dyn FnMut(&'static str, Writing<'_>) -> Result<(), String> + 'a;

/// Buffers of many lengths in turn, most of them long enough.
#[derive(Default)]
pub struct Rooms(usize);

impl Rooms {
    pub fn next(&mut self) -> Room {
        const ROOMS: [Room; 9] = [
            Room::More(0),
            Room::More(1),
            Room::Less(1),
            Room::More(0),
            Room::Bytes(LONGEST),
            Room::More(29),
            Room::Bytes(0),
            Room::More(0),
            Room::Less(12),
        ];
        self.0 += 1;
        ROOMS[self.0 % ROOMS.len()]
    }
}

/// The calls that are the same in every run.
pub fn fixed(visit: &mut Visit) -> Result<(), String> {
    limits::fixed(visit)?;
    lengths(visit)?;
    for knowledge in [Knowledge::filled(1, 2, 1), Knowledge::filled(2, 3, 3), Knowledge::largest()] {
        faults(&knowledge, visit)?;
    }
    damaged(visit)?;
    every_room(visit)?;
    every_shape(visit)?;
    spans(visit)?;
    merges::fixed(visit)
}

/// Ids of every length from 0 to 40.
fn lengths(visit: &mut Visit) -> Result<(), String> {
    const LENGTHS: std::ops::RangeInclusive<usize> = 0..=40;
    let knowledge = &Knowledge::filled(2, 4, 3).bytes();
    let mut rooms = Rooms::default();
    // Behind the ids lie further bytes of the same sort; cut or longer, they begin as ids that are in the knowledge.
    let mut first = [0; 40];
    first[23] = 1;
    for n in LENGTHS {
        for m in LENGTHS {
            for last_byte in [0, 255] {
                let (first_item, last_item) = (&first[..n], &[last_byte; 40][..m]);
                let room = rooms.next();
                visit("ids of every length", Writing::Project { knowledge, first_item, last_item, room })?;
            }
        }
    }
    Ok(())
}

/// Each fault of a knowledge in each argument, together with each fault in every other argument and a buffer that is too
/// short.
fn faults(knowledge: &Knowledge, visit: &mut Visit) -> Result<(), String> {
    const FAMILY: &str = "faults";
    let mut knowledges = vec![knowledge.bytes()];
    knowledges.extend(faulty(knowledge));
    let id = [1; 25];
    let ids = [&id[..24], &id[..23], &id, &[]];
    let mut ends: Vec<(&[u8], &[u8])> = ids.iter().flat_map(|from| ids.map(|to| (*from, to))).collect();
    ends.push((&LAST_ITEM, &FIRST_ITEM));
    ends.push((&id[..24], &FIRST_ITEM));
    for room in [Room::More(0), Room::Less(1), Room::Bytes(0)] {
        for first in &knowledges {
            visit(FAMILY, Writing::Normalise { knowledge: first, room })?;
            for second in &knowledges {
                visit(FAMILY, Writing::Merge { first, second, room })?;
            }
            for (first_item, last_item) in &ends {
                visit(FAMILY, Writing::Project { knowledge: first, first_item, last_item, room })?;
            }
        }
    }
    Ok(())
}

/// The first knowledge in place of each knowledge argument, with the other beside it, in each call.
fn each_argument(
    family: &'static str,
    knowledge: &[u8],
    other: &[u8],
    rooms: &mut Rooms,
    visit: &mut Visit,
) -> Result<(), String> {
    visit(family, Writing::Normalise { knowledge, room: rooms.next() })?;
    visit(family, Writing::Merge { first: knowledge, second: other, room: rooms.next() })?;
    visit(family, Writing::Merge { first: other, second: knowledge, room: rooms.next() })?;
    let [first_item, last_item] = &[item_id(1), item_id(2)];
    visit(family, Writing::Project { knowledge, first_item, last_item, room: rooms.next() })
}

/// A knowledge cut anywhere, or with any field set to any of its boundary values, in each argument.
fn damaged(visit: &mut Visit) -> Result<(), String> {
    let written = Knowledge::filled(2, 3, 2).write();
    let other = Knowledge::filled(3, 4, 3).bytes();
    let rooms = &mut Rooms::default();
    for n in 0..=written.bytes.len() {
        each_argument("prefixes", &written.bytes[..n], &other, rooms, visit)?;
    }
    for (at, field) in written.fields.iter().enumerate() {
        for value in boundary_values(&written, at) {
            let mut bytes = written.bytes.clone();
            bytes[field.start..field.start + field.size].copy_from_slice(&value);
            each_argument("fields", &bytes, &other, rooms, visit)?;
        }
    }
    Ok(())
}

/// Buffers of every length up to a few bytes more than a short result, and of lengths around a long one.
fn every_room(visit: &mut Visit) -> Result<(), String> {
    const FAMILY: &str = "buffers of every length";
    let more = (0..=40).map(Room::More);
    let short: Vec<Room> = more.clone().chain((1..=320).map(Room::Less)).collect();
    let long: Vec<Room> =
        more.chain((1..=40).map(Room::Less)).chain((0..LONGEST).step_by(499).map(Room::Bytes)).collect();
    let pairs = [
        (Knowledge::smallest(), Knowledge::smallest(), &short),
        (Knowledge::a(), Knowledge::b(), &short),
        (Knowledge::filled(2, 3, 2), Knowledge::filled(3, 2, 3), &short),
        (Knowledge::filled(4, 9, 8), Knowledge::filled(5, 7, 9), &long),
        (Knowledge::largest(), limits::backwards(&Knowledge::largest()), &long),
    ];
    for (first, second, rooms) in pairs {
        let (first, second) = (&first.bytes(), &second.bytes());
        let [first_item, last_item] = &[item_id(1), item_id(60)];
        for room in rooms.iter().copied() {
            visit(FAMILY, Writing::Normalise { knowledge: second, room })?;
            visit(FAMILY, Writing::Merge { first, second, room })?;
            visit(FAMILY, Writing::Project { knowledge: first, first_item, last_item, room })?;
        }
    }
    Ok(())
}

/// Knowledges of many shapes, as they are, in normal form and with the same ticks in other bytes: each alone, each two, and
/// parts of each.
fn every_shape(visit: &mut Visit) -> Result<(), String> {
    const FAMILY: &str = "shapes";
    let random = &mut SplitMix64::new(7);
    let rooms = &mut Rooms::default();
    let mut all = Vec::new();
    for shape in shapes().iter().chain(&limits::unusual()) {
        let relaid = [(); 3].map(|()| pairs::relaid(random, shape).bytes());
        let normal = shape.normalised().bytes();
        for knowledge in relaid.iter().chain([&normal, &shape.bytes()]) {
            visit(FAMILY, Writing::Normalise { knowledge, room: rooms.next() })?;
            visit(FAMILY, Writing::Normalise { knowledge, room: Room::More(0) })?;
        }
        let items = items(shape, 4);
        for first_item in &items {
            for last_item in items.iter().filter(|last| first_item <= *last) {
                let knowledge = &relaid[0];
                visit(FAMILY, Writing::Project { knowledge, first_item, last_item, room: rooms.next() })?;
            }
        }
        all.extend(relaid.into_iter().take(1).chain([normal, shape.bytes()]));
    }
    for first in &all {
        for second in &all {
            visit(FAMILY, Writing::Merge { first, second, room: rooms.next() })?;
        }
    }
    Ok(())
}

/// Every span between the bounds of a knowledge and the ids next to them, in order or not, where ranges are unlike and where
/// some of them are alike.
fn spans(visit: &mut Visit) -> Result<(), String> {
    const FAMILY: &str = "spans";
    let rooms = &mut Rooms::default();
    for unlike in spread() {
        let mut alike = unlike.clone();
        alike.vectors[3] = alike.vectors[2].clone();
        alike.ranges[4].1 = 0;
        let mut same = unlike.clone();
        same.ranges.iter_mut().for_each(|(_, index)| *index = 2);
        let items = items(&unlike, 6);
        for knowledge in [unlike, alike, same] {
            let knowledge = &knowledge.bytes();
            for first_item in &items {
                for last_item in &items {
                    visit(FAMILY, Writing::Project { knowledge, first_item, last_item, room: Room::More(0) })?;
                    if first_item <= last_item {
                        visit(FAMILY, Writing::Project { knowledge, first_item, last_item, room: rooms.next() })?;
                    }
                }
            }
        }
    }
    Ok(())
}

/// `count` random calls, on two knowledges that are related to each other or near the limits, intact or not.
pub fn random(seed: u64, count: usize, visit: &mut Visit) -> Result<(), String> {
    const CALLS_OF_A_PAIR: usize = 15;
    let random = &mut SplitMix64::new(seed);
    let mut pair = pairs::pair(random);
    let mut intact = [pair.0.bytes(), pair.1.bytes()];
    for k in 0..count {
        if k % CALLS_OF_A_PAIR == 0 {
            pair = if random.once_in(4) { limits::pair(random) } else { pairs::pair(random) };
            intact = [pair.0.bytes(), pair.1.bytes()];
        }
        let knowledges = [&pair.0, &pair.1];
        let [mut first, mut second] = intact.clone();
        let [mut first_item, mut last_item] = [(); 2].map(|()| pairs::item(random, knowledges).to_vec());
        order_span(random, &mut first_item, &mut last_item);
        let family = match random.below(8) {
            0 => {
                damage(random, knowledges[0], &mut first);
                "random, the first knowledge damaged"
            }
            1 => {
                damage(random, knowledges[1], &mut second);
                let id = if random.once_in(2) { &mut first_item } else { &mut last_item };
                let byte = *random.choose(&[0, 1, 255]);
                id.resize(random.between(0, 40), byte);
                "random, the second knowledge or an id damaged"
            }
            2 if random.once_in(4) => {
                damage(random, knowledges[0], &mut first);
                damage(random, knowledges[1], &mut second);
                last_item.resize(random.between(22, 26), 0);
                "random, two arguments damaged"
            }
            _ => "random, intact",
        };
        let room = room(random);
        let (first, second, first_item, last_item) = (&first, &second, &first_item, &last_item);
        let call = match k % 3 {
            0 => Writing::Normalise { knowledge: first, room },
            1 => Writing::Merge { first, second, room },
            _ => Writing::Project { knowledge: first, first_item, last_item, room },
        };
        visit(family, call)?;
    }
    Ok(())
}

/// Mostly a buffer that is long enough, often just so.
pub fn room(random: &mut SplitMix64) -> Room {
    match random.below(12) {
        0 => Room::Bytes(0),
        1 => Room::Less(1),
        2 => Room::Less(random.between(1, 120)),
        3 => Room::Bytes(random.below(LONGEST)),
        4 => Room::Bytes(LONGEST),
        5 | 6 => Room::More(random.between(1, 64)),
        _ => Room::More(0),
    }
}
