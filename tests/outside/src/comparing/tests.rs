//! The comparison passes a right engine and notices wrong ones.

use inputs::{FIRST_ITEM, ItemId, LAST_ITEM, ReplicaId, item_before, item_id, next_item};

use super::*;
use crate::stand_in::Reference;

const PLAN: Plan = Plan { inputs: 20_000, ..Plan::USUAL };

/// A place with the first's tick and the second's.
type Place = (ItemId, ReplicaId, [u64; 2]);
/// The order and the places.
type Compared = (u32, Vec<Place>);
type Way = fn([&Knowledge; 2]) -> Compared;
type Number = fn([&[u8]; 2], usize, u32) -> u32;
type Meddle = fn(u32, &mut u32, &mut [u8], &mut u64);

/// An engine that is right where no other way is given.
struct Fake {
    way: Option<Way>,
    /// The number that it gives, by the knowledges, the length of the buffer and the right number.
    number: Number,
    /// What it does at the end.
    meddle: Meddle,
    /// So many bytes less than the result are enough for it.
    needs_less: usize,
    /// Its cover answers for the two in exchanged places.
    exchanges_cover: bool,
}

impl Default for Fake {
    fn default() -> Self {
        Self {
            way: None,
            number: |_, _, number| number,
            meddle: |_, _, _, _| {},
            needs_less: 0,
            exchanges_cover: false,
        }
    }
}

impl Engine for Fake {
    fn compare(&self, knowledges: [&[u8]; 2], order: &mut u32, out: &mut [u8], written: &mut u64) -> u32 {
        let mut longest = [0; LARGEST_COMPARISON];
        let right = reference::compare(knowledges[0], knowledges[1], &mut longest);
        let answer = right.map(|(order, length)| match self.way {
            None => (order, longest[..length].to_vec()),
            Some(way) => {
                let [first, second] = knowledges.map(Knowledge::decoded);
                let (order, places) = way([&first, &second]);
                (order, places.iter().flat_map(bytes).collect())
            }
        });
        let number = match &answer {
            Ok((_, bytes)) if bytes.len() > out.len() + self.needs_less => 14,
            Ok(_) => 0,
            Err(number) => *number,
        };
        let number = (self.number)(knowledges, out.len(), number);
        if let (0, Ok((right, bytes))) = (number, answer) {
            let length = bytes.len().min(out.len());
            out[..length].copy_from_slice(&bytes[..length]);
            (*order, *written) = (right, bytes.len() as u64);
        }
        (self.meddle)(number, order, out, written);
        number
    }
}

fn bytes((item, replica, ticks): &Place) -> Vec<u8> {
    [&item[..], replica, &ticks.map(u64::to_be_bytes).concat()].concat()
}

/// Cover is right unless it is exchanged.
impl calls::Engine for Fake {
    fn contain(&self, _: &[u8], _: &[u8], _: &[u8], _: u64, _: &mut u32) -> u32 {
        unreachable!("not asked for")
    }

    fn lead(&self, _: [&[u8]; 2], _: &[u8], _: &[u8], _: &mut i64) -> u32 {
        unreachable!("not asked for")
    }

    fn cover(&self, [first, second]: [&[u8]; 2], span: [&[u8]; 2], covers: &mut u32) -> u32 {
        let knowledges = if self.exchanges_cover { [second, first] } else { [first, second] };
        Reference.cover(knowledges, span, covers)
    }
}

/// An item and a replica with both ticks there.
fn at(item: ItemId, id: ReplicaId, knowledges: [&Knowledge; 2]) -> Place {
    (item, id, knowledges.map(|knowledge| knowledge.known(&item, &id)))
}

/// Where the first lacks something first, and where the second does.
fn places([first, second]: [&Knowledge; 2]) -> [Option<Place>; 2] {
    let lacks = [first.first_lack(second), second.first_lack(first)];
    lacks.map(|lack| lack.map(|(item, id)| at(item, id, [first, second])))
}

/// What is compared where these are the places.
fn compared(places: [Option<Place>; 2]) -> Compared {
    let [first, second] = places.map(|place| u32::from(place.is_some()));
    (first | second << 1, places.into_iter().flatten().collect())
}

/// What is compared where each place is another.
fn other_places(knowledges: [&Knowledge; 2], other: fn(Place, [&Knowledge; 2], usize) -> Place) -> Compared {
    let [first, second] = places(knowledges);
    compared([first.map(|place| other(place, knowledges, 0)), second.map(|place| other(place, knowledges, 1))])
}

/// All replicas of which one side lacks something at an item, by their key in the other's map.
fn lacking_ids(item: &ItemId, knowledges: [&Knowledge; 2], side: usize) -> Vec<ReplicaId> {
    let (one, other) = (knowledges[side], knowledges[1 - side]);
    other.replicas.iter().copied().filter(|id| one.known(item, id) < other.known(item, id)).collect()
}

const RIGHT: Way = |both| compared(places(both));

#[test]
fn a_right_engine_passes() {
    assert_eq!(run(&PLAN, &Fake::default()).unwrap().pairs(), 20_000);
    assert_eq!(run(&PLAN, &Reference).unwrap().pairs(), 20_000);
    run(&Plan { inputs: 5_000, ..PLAN }, &Fake { way: Some(RIGHT), ..Fake::default() }).unwrap();
    assert_eq!(every_room(&Fake::default()), Ok(791));
}

fn is_noticed(name: &str, fake: &Fake) {
    let error = run(&PLAN, fake).expect_err(name);
    assert!(error.starts_with("compare: in place: engine "), "{name}: {error}");
}

const OTHER_ORDERS: [(&str, Way); 6] = [
    ("behind is ahead", |both| {
        let (order, places) = RIGHT(both);
        ([0, 2, 1, 3][order as usize], places)
    }),
    ("the second side left out", |both| compared([places(both)[0], None])),
    ("the first side left out", |both| compared([None, places(both)[1]])),
    ("the second side left out of the order", |both| (RIGHT(both).0 & 1, RIGHT(both).1)),
    ("apart only where both lack at one item", |both| {
        let (order, places) = RIGHT(both);
        (if order == 3 && places[0].0 != places[1].0 { 1 } else { order }, places)
    }),
    ("never alike", |both| (RIGHT(both).0.max(1), RIGHT(both).1)),
];

#[test]
fn an_engine_with_another_order_is_noticed() {
    for (name, way) in OTHER_ORDERS {
        is_noticed(name, &Fake { way: Some(way), ..Fake::default() });
    }
}

const OTHER_PLACES: [(&str, Way); 11] = [
    ("the second's place left out", |both| (RIGHT(both).0, RIGHT(both).1.into_iter().take(1).collect())),
    ("places exchanged", |both| (RIGHT(both).0, RIGHT(both).1.into_iter().rev().collect())),
    ("ticks exchanged", |both| other_places(both, |(item, id, [a, b]), _, _| (item, id, [b, a]))),
    ("the smaller tick first", |both| other_places(both, |(item, id, [a, b]), _, _| (item, id, [a.min(b), a.max(b)]))),
    ("the replica by key", |both| {
        other_places(both, |(item, _, _), both, side| at(item, lacking_ids(&item, both, side)[0], both))
    }),
    ("the highest replica", |both| {
        other_places(both, |(item, id, _), both, side| {
            at(item, lacking_ids(&item, both, side).into_iter().max().unwrap_or(id), both)
        })
    }),
    ("the item before", |both| {
        other_places(both, |(item, id, ticks), _, _| (item_before(&item).unwrap_or(item), id, ticks))
    }),
    ("the item behind", |both| {
        other_places(both, |(item, id, ticks), _, _| (next_item(&item).unwrap_or(item), id, ticks))
    }),
    ("both at the lower item", |both| {
        let (order, mut places) = RIGHT(both);
        let lowest = places.iter().map(|place| place.0).min();
        places.iter_mut().for_each(|place| place.0 = lowest.unwrap_or(place.0));
        (order, places)
    }),
    ("the lead for the first's tick", |both| {
        other_places(both, |(item, id, [a, b]), _, _| (item, id, [b.abs_diff(a), b]))
    }),
    ("ticks of four bytes", |both| {
        other_places(both, |(item, id, ticks), _, _| (item, id, ticks.map(|tick| u64::from(tick as u32))))
    }),
];

#[test]
fn an_engine_with_other_places_is_noticed() {
    for (name, way) in OTHER_PLACES {
        is_noticed(name, &Fake { way: Some(way), ..Fake::default() });
    }
}

const ELSEWHERE: [(&str, Way); 6] = [
    ("from item 1 on", |both| {
        let [first, second] = both.map(|knowledge| knowledge.projected(&item_id(1), &LAST_ITEM));
        RIGHT([&first, &second])
    }),
    ("not at the last item", |both| {
        let last = item_before(&LAST_ITEM).expect("it is not the first");
        let [first, second] = both.map(|knowledge| knowledge.projected(&FIRST_ITEM, &last));
        RIGHT([&first, &second])
    }),
    ("the first's bounds only", |[first, second]| {
        let mut places = first.bounds();
        places.insert(FIRST_ITEM);
        let second = Knowledge::with_ticks(places, second.replica_set(), |item, id| second.known(item, id));
        RIGHT([first, &second])
    }),
    ("the first's replicas only", |[first, second]| {
        let known = first.replica_set();
        let second = Knowledge::with_ticks(second.bounds(), known, |item, id| second.known(item, id));
        RIGHT([first, &second])
    }),
    ("the first's keys in the second", |[first, second]| {
        RIGHT([first, &Knowledge { replicas: first.replicas.clone(), ..second.clone() }])
    }),
    ("an id below the first range is in it", |both| {
        let [mut first, mut second] = both.map(Knowledge::clone);
        (first.ranges[0].0, second.ranges[0].0) = (FIRST_ITEM, FIRST_ITEM);
        RIGHT([&first, &second])
    }),
];

#[test]
fn an_engine_that_looks_elsewhere_is_noticed() {
    for (name, way) in ELSEWHERE {
        is_noticed(name, &Fake { way: Some(way), ..Fake::default() });
    }
}

const NUMBERS: [(&str, Number); 6] = [
    ("14 before all others", |_, room, number| if room < 56 && number != 0 { 14 } else { number }),
    ("14 before the second's", |[first, _], room, number| {
        let second = number != 0 && number != 14 && reference::check(first).is_ok();
        if second && room == 0 { 14 } else { number }
    }),
    (
        "14 where the longest does not fit",
        |_, room, number| {
            if room < LARGEST_COMPARISON && number == 0 { 14 } else { number }
        },
    ),
    ("the second first", |[_, second], _, number| reference::check(second).err().unwrap_or(number)),
    ("the larger number of both", |knowledges, _, number| {
        knowledges.map(|bytes| reference::check(bytes).err().unwrap_or(number)).into_iter().max().unwrap_or(number)
    }),
    ("11 for over 16 replicas together", |knowledges, _, number| {
        let replicas: u64 = knowledges.iter().filter_map(|bytes| Some(reference::check(bytes).ok()?.r)).sum();
        if number == 0 && replicas > 16 { 11 } else { number }
    }),
];

#[test]
fn an_engine_that_gives_a_wrong_number_is_noticed() {
    for (name, number) in NUMBERS {
        is_noticed(name, &Fake { number, ..Fake::default() });
    }
    is_noticed("one byte less is enough", &Fake { needs_less: 1, ..Fake::default() });
    every_room(&Fake { needs_less: 1, ..Fake::default() }).unwrap_err();
}

const WRITES: [(&str, Meddle); 7] = [
    ("the order on 14", |number, order, _, _| *order = if number == 14 { 1 } else { *order }),
    ("the order on a fault", |number, order, _, _| *order = if (1..=10).contains(&number) { 0 } else { *order }),
    ("the length on 14", |number, _, _, written| *written = if number == 14 { 56 } else { *written }),
    ("the length on a fault", |number, _, _, written| *written = if number == 10 { 0 } else { *written }),
    ("a byte on 14", |number, _, out, _| {
        if let (14, [byte, ..]) = (number, out) {
            *byte = byte.wrapping_add(1);
        }
    }),
    ("the first place on 14", |number, _, out, _| {
        if number == 14 && out.len() >= 56 {
            out[..56].fill(0);
        }
    }),
    ("the rest cleared", |number, _, out, written| {
        if number == 0 {
            out[*written as usize..].fill(0);
        }
    }),
];

#[test]
fn an_engine_that_writes_too_much_is_noticed() {
    for (name, meddle) in WRITES {
        is_noticed(name, &Fake { meddle, ..Fake::default() });
        every_room(&Fake { meddle, ..Fake::default() }).expect_err(name);
    }
}

#[test]
fn an_order_that_is_not_as_cover_says_is_noticed() {
    let error = run(&PLAN, &Fake { exchanges_cover: true, ..Fake::default() }).unwrap_err();
    assert!(error.contains("but cover gives 0 and"), "{error}");
}

#[test]
fn what_never_occurs_is_noticed() {
    assert!(run(&Plan { inputs: 20, ..PLAN }, &Fake::default()).unwrap_err().contains("never occurred"));
}

#[test]
fn triples_pass_a_right_engine_and_notice_wrong_ones() {
    let right = triples::run(&PLAN, &Reference).unwrap();
    assert_eq!((right.triples, right.made), (2_000, 1_000));
    let wrong: [(&str, Way); 4] = [
        ("does not carry over", |both| {
            let [first, second] = both.map(|knowledge| knowledge.replica_set().len());
            (if first.abs_diff(second) < 5 { RIGHT(both).0 } else { 0 }, Vec::new())
        }),
        ("does not rise", |[first, second]| {
            let [first, second] = [first, second].map(|knowledge| knowledge.ranges.len());
            (u32::from(first < second) | u32::from(second < first) << 1, Vec::new())
        }),
        ("not the opposite order", |both| (RIGHT(both).0 & 1, Vec::new())),
        ("behind twice too seldom", |_| (0, Vec::new())),
    ];
    for (name, way) in wrong {
        let error = triples::run(&PLAN, &Fake { way: Some(way), ..Fake::default() }).expect_err(name);
        assert!(error.starts_with(name), "{name}: {error}");
    }
}
