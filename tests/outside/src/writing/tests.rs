//! The comparison passes a right engine and notices wrong ones.

use inputs::{FIRST_ITEM, ItemId, Knowledge, LAST_ITEM, ReplicaId, item_before, next_item};

use super::*;
use crate::calls;

/// Twice as many as there are fixed ones, so that all of these are in the run.
const PLAN: Plan = Plan { inputs: 130_000, ..Plan::USUAL };

type Normalise = fn(Knowledge) -> Knowledge;
type Merge = fn([Knowledge; 2]) -> Knowledge;
type Project = fn(Knowledge, ItemId, ItemId) -> Knowledge;
type Limit = fn(&Knowledge) -> u32;
type Fits = fn(usize, usize) -> bool;
type Number = fn(&[&[u8]], usize, u32) -> u32;
type Meddle = fn(u32, &mut [u8], &mut u64);

/// An engine that is right where no other way is given.
pub struct Fake {
    pub normalise: Option<Normalise>,
    pub merge: Option<Merge>,
    pub project: Option<Project>,
    /// The number of a result that has too much of something, else 0.
    pub limit: Option<Limit>,
    /// Whether a result of a length fits a buffer of a length.
    pub fits: Fits,
    /// The number that it gives, by the arguments, the length of the buffer and the right number.
    pub number: Number,
    /// What it does at the end.
    pub meddle: Meddle,
}

impl Default for Fake {
    fn default() -> Self {
        Self {
            normalise: None,
            merge: None,
            project: None,
            limit: None,
            fits: |length, room| length <= room,
            number: |_, _, number| number,
            meddle: |_, _, _| {},
        }
    }
}

fn right_limit(result: &Knowledge) -> u32 {
    match (result.replicas.len(), result.ranges.len()) {
        (17.., _) => 11,
        (_, 65..) => 12,
        _ => 0,
    }
}

impl Fake {
    /// Gives the result of the other way, where there is one or another limit is set, else that of the reference.
    fn give(
        &self,
        arguments: &[&[u8]],
        other: Option<Knowledge>,
        right: impl FnOnce(&mut [u8]) -> Result<usize, u32>,
        out: &mut [u8],
        written: &mut u64,
    ) -> u32 {
        let answer = match other {
            Some(result) => match self.limit.unwrap_or(right_limit)(&result) {
                0 => Ok(result.bytes()),
                number => Err(number),
            },
            None => {
                let mut longest = vec![0; LONGEST];
                right(&mut longest).map(|length| longest[..length].to_vec())
            }
        };
        let number = match &answer {
            Ok(bytes) if (self.fits)(bytes.len(), out.len()) => 0,
            Ok(_) => 14,
            Err(number) => *number,
        };
        let number = (self.number)(arguments, out.len(), number);
        if number == 0 {
            let bytes = answer.unwrap_or_default();
            let length = bytes.len().min(out.len());
            out[..length].copy_from_slice(&bytes[..length]);
            *written = bytes.len() as u64;
        }
        (self.meddle)(number, out, written);
        number
    }
}

/// What the knowledges say, if all are without fault.
fn decoded<const N: usize>(knowledges: [&[u8]; N]) -> Option<[Knowledge; N]> {
    let right = knowledges.iter().all(|knowledge| reference::check(knowledge).is_ok());
    right.then(|| knowledges.map(Knowledge::decoded))
}

fn ends(span: [&[u8]; 2]) -> Option<[ItemId; 2]> {
    let [first, last] = span.map(|id| ItemId::try_from(id).ok());
    let (first, last) = (first?, last?);
    (first <= last).then_some([first, last])
}

// The right ways, slowly.
const NORMALISE: Normalise = |knowledge| knowledge.normalised();
const MERGE: Merge = |[first, second]| first.merged(&second);
const PROJECT: Project = |knowledge, first, last| knowledge.projected(&first, &last);

impl Engine for Fake {
    fn normalise(&self, knowledge: &[u8], out: &mut [u8], written: &mut u64) -> u32 {
        let way = self.normalise.or(self.limit.map(|_| NORMALISE));
        let other = way.and_then(|way| decoded([knowledge]).map(|[knowledge]| way(knowledge)));
        self.give(&[knowledge], other, |out| reference::normalise(knowledge, out), out, written)
    }

    fn merge(&self, knowledges: [&[u8]; 2], out: &mut [u8], written: &mut u64) -> u32 {
        let [first, second] = knowledges;
        let way = self.merge.or(self.limit.map(|_| MERGE));
        let other = way.and_then(|way| decoded(knowledges).map(way));
        self.give(&knowledges, other, |out| reference::merge(first, second, out), out, written)
    }

    fn project(&self, knowledge: &[u8], span: [&[u8]; 2], out: &mut [u8], written: &mut u64) -> u32 {
        let [first, last] = span;
        let way = self.project.or(self.limit.map(|_| PROJECT));
        let other = way.and_then(|way| {
            let ([knowledge], [first, last]) = (decoded([knowledge])?, ends(span)?);
            Some(way(knowledge, first, last))
        });
        self.give(&[knowledge, first, last], other, |out| reference::project(knowledge, first, last, out), out, written)
    }
}

/// Looking something up is right.
impl calls::Engine for Fake {
    fn contain(&self, _: &[u8], _: &[u8], _: &[u8], _: u64, _: &mut u32) -> u32 {
        unreachable!("not asked for")
    }

    fn lead(&self, _: [&[u8]; 2], _: &[u8], _: &[u8], _: &mut i64) -> u32 {
        unreachable!("not asked for")
    }

    fn cover(&self, [first, second]: [&[u8]; 2], [first_item, last_item]: [&[u8]; 2], covers: &mut u32) -> u32 {
        match reference::cover(first, second, first_item, last_item) {
            Ok(answer) => {
                *covers = answer.into();
                0
            }
            Err(number) => number,
        }
    }
}

fn is_noticed(name: &str, fake: &Fake) {
    let error = run(&PLAN, fake).expect_err(name);
    assert!(error.contains("in place: engine "), "{name}: {error}");
}

#[test]
fn a_right_engine_passes() {
    let tally = run(&PLAN, &Fake::default()).unwrap();
    assert_eq!(tally.calls(), PLAN.inputs as u64);
    let slow = Fake { limit: Some(right_limit), ..Fake::default() };
    run(&Plan { inputs: 20_000, ..PLAN }, &slow).unwrap();
}

/// The normal form with another replica map, each of whose replicas has a tick or not.
fn with_map(mut normal: Knowledge, map: Vec<ReplicaId>) -> Knowledge {
    let key = |id: &ReplicaId| map.iter().position(|other| other == id).expect("the map has it") as u32;
    for vector in &mut normal.vectors {
        vector.iter_mut().for_each(|(old, _)| *old = key(&normal.replicas[*old as usize]));
        vector.sort();
    }
    normal.replicas = map;
    normal
}

fn with_ticks_changed(mut knowledge: Knowledge, change: fn(u64) -> u64) -> Knowledge {
    knowledge.vectors.iter_mut().flatten().for_each(|(_, tick)| *tick = change(*tick));
    knowledge.normalised()
}

fn from_the_first_item(mut knowledge: Knowledge) -> Knowledge {
    knowledge.ranges[0].0 = FIRST_ITEM;
    knowledge
}

pub fn other_normal_forms() -> Vec<(&'static str, Option<Normalise>)> {
    let ways: [(&str, Normalise); 14] = [
        ("as it stands", |k| k),
        ("the smallest", |_| Knowledge::smallest()),
        ("replicas as they stand", |k| {
            let normal = k.normalised();
            let map = k.replicas.into_iter().filter(|id| normal.replicas.contains(id)).collect();
            with_map(normal, map)
        }),
        ("replicas without a tick kept", |k| with_map(k.normalised(), k.replica_set().into_iter().collect())),
        ("an id below the first range is in it", |k| from_the_first_item(k).normalised()),
        ("neighbours that are alike kept", |k| {
            let mut normal = k.normalised();
            for bound in k.bounds() {
                let place = normal.ranges.partition_point(|(other, _)| *other < bound);
                if normal.ranges.get(place).is_none_or(|(other, _)| *other != bound) {
                    normal.ranges.insert(place, (bound, normal.ranges[place - 1].1));
                }
            }
            normal
        }),
        ("tick 0 written", |k| {
            let mut normal = k.normalised();
            let replicas = normal.replicas.len() as u32;
            for vector in normal.vectors.iter_mut().skip(1) {
                for key in 0..replicas {
                    if vector.iter().all(|(other, _)| *other != key) {
                        vector.push((key, 0));
                    }
                }
                vector.sort();
            }
            normal
        }),
        ("vectors in another order", |k| {
            let mut normal = k.normalised();
            let count = normal.vectors.len() as u32;
            normal.vectors[1..].reverse();
            normal.ranges.iter_mut().filter(|(_, index)| *index > 0).for_each(|(_, index)| *index = count - *index);
            normal
        }),
        ("elements in another order", |k| {
            let mut normal = k.normalised();
            normal.vectors.iter_mut().for_each(|vector| vector.reverse());
            normal
        }),
        ("vectors that are alike kept", |k| {
            let mut normal = k.normalised();
            let mut seen = Vec::new();
            for (_, index) in normal.ranges.iter_mut().filter(|(_, index)| *index > 0) {
                if seen.contains(index) {
                    normal.vectors.push(normal.vectors[*index as usize].clone());
                    *index = normal.vectors.len() as u32 - 1;
                }
                seen.push(*index);
            }
            normal
        }),
        ("ticks of four bytes", |k| with_ticks_changed(k, |tick| u64::from(tick as u32))),
        ("the largest tick lowered", |k| with_ticks_changed(k, |tick| tick.min(i64::MAX as u64 - 1))),
        ("no tick below 1", |k| with_ticks_changed(k, |tick| tick.max(1))),
        ("not the last range", |mut k| {
            k.ranges.pop();
            k.normalised()
        }),
    ];
    ways.map(|(name, way)| (name, Some(way))).into()
}

/// A merge that takes the two ticks together in another way.
fn merged_by(knowledges: [Knowledge; 2], way: fn(u64, u64) -> u64) -> Knowledge {
    let [first, second] = knowledges;
    let mut places = first.bounds();
    places.extend(second.bounds());
    let mut replicas = first.replica_set();
    replicas.extend(second.replica_set());
    Knowledge::with_ticks(places, replicas, |item, id| way(first.known(item, id), second.known(item, id)))
}

pub fn other_merges() -> Vec<(&'static str, Option<Merge>)> {
    let ways: [(&str, Merge); 10] = [
        ("the first", |[first, _]| first.normalised()),
        ("the second", |[_, second]| second.normalised()),
        ("the smaller tick", |both| merged_by(both, u64::min)),
        ("the sum", |both| merged_by(both, |first, second| first + second)),
        ("the second's where it has one", |both| {
            merged_by(both, |first, second| if second > 0 { second } else { first })
        }),
        ("the larger in four bytes", |both| merged_by(both, |a, b| if a as u32 >= b as u32 { a } else { b })),
        ("the first's keys in the second", |[first, mut second]| {
            second.replicas.clone_from(&first.replicas);
            first.merged(&second)
        }),
        ("the first's bounds only", |[first, second]| {
            let mut replicas = first.replica_set();
            replicas.extend(second.replica_set());
            Knowledge::with_ticks(first.bounds(), replicas, |item, id| {
                first.known(item, id).max(second.known(item, id))
            })
        }),
        ("the first's replicas only", |[first, second]| {
            let mut places = first.bounds();
            places.extend(second.bounds());
            Knowledge::with_ticks(places, first.replica_set(), |item, id| {
                first.known(item, id).max(second.known(item, id))
            })
        }),
        ("an id below the first range is in it", |both| {
            let [first, second] = both.map(from_the_first_item);
            first.merged(&second)
        }),
    ];
    ways.map(|(name, way)| (name, Some(way))).into()
}

pub fn other_parts() -> Vec<(&'static str, Option<Project>)> {
    let ways: [(&str, Project); 11] = [
        ("all of it", |k, _, _| k.normalised()),
        ("nothing", |_, _, _| Knowledge::smallest()),
        ("without the last id", |k, first, last| match item_before(&last) {
            Some(last) if first <= last => k.projected(&first, &last),
            _ => Knowledge::smallest(),
        }),
        ("without the first id", |k, first, last| match next_item(&first) {
            Some(first) if first <= last => k.projected(&first, &last),
            _ => Knowledge::smallest(),
        }),
        ("one id more", |k, first, last| k.projected(&first, &next_item(&last).unwrap_or(last))),
        ("one id before", |k, first, last| k.projected(&item_before(&first).unwrap_or(first), &last)),
        ("from the first id on", |k, first, _| k.projected(&first, &LAST_ITEM)),
        ("up to the last id", |k, _, last| k.projected(&FIRST_ITEM, &last)),
        ("nothing where the span ends at the top", |k, first, last| {
            if last == LAST_ITEM { Knowledge::smallest() } else { k.projected(&first, &last) }
        }),
        ("ranges that start inside only", |mut k, first, last| {
            for (bound, index) in &mut k.ranges {
                *index *= u32::from(first <= *bound && *bound <= last);
            }
            k.projected(&first, &last)
        }),
        ("all of each range", |k, first, last| {
            let bound = k.ranges.iter().map(|(bound, _)| *bound).rfind(|bound| *bound <= first).unwrap_or(first);
            k.projected(&bound, &last)
        }),
    ];
    ways.map(|(name, way)| (name, Some(way))).into()
}

#[test]
fn an_engine_that_writes_another_result_is_noticed() {
    for (name, normalise) in other_normal_forms() {
        is_noticed(name, &Fake { normalise, ..Fake::default() });
    }
    for (name, merge) in other_merges() {
        is_noticed(name, &Fake { merge, ..Fake::default() });
    }
    for (name, project) in other_parts() {
        is_noticed(name, &Fake { project, ..Fake::default() });
    }
}

#[test]
fn an_engine_that_errs_about_the_larger_tick_at_an_end_only_is_noticed() {
    const TOP: u64 = i64::MAX as u64;
    let wrong: [(&str, Merge); 5] = [
        ("the difference dropped where it is the first", |both| {
            merged_by(both, |a, b| if a.wrapping_sub(b) < a { a } else { b })
        }),
        ("none for none and 1", |both| merged_by(both, |a, b| if (a, b) == (0, 1) { 0 } else { a.max(b) })),
        ("the one before the largest", |both| {
            merged_by(both, |a, b| if (a, b) == (TOP - 1, TOP) { a } else { a.max(b) })
        }),
        ("the one before the largest, the other way round", |both| {
            merged_by(both, |a, b| if (a, b) == (TOP, TOP - 1) { b } else { a.max(b) })
        }),
        ("none for twice the largest", |both| merged_by(both, |a, b| if (a, b) == (TOP, TOP) { 0 } else { a.max(b) })),
    ];
    // these are slow, and some of the fixed calls are enough
    let plan = Plan { inputs: 20_000, ..PLAN };
    for (name, merge) in wrong {
        let error = run(&plan, &Fake { merge: Some(merge), ..Fake::default() }).expect_err(name);
        assert!(error.contains("in place: engine "), "{name}: {error}");
    }
}

#[test]
fn an_engine_with_another_limit_is_noticed() {
    let wrong: [(&str, Limit); 5] = [
        ("16 replicas are too many", |k| if k.replicas.len() > 15 { 11 } else { right_limit(k) }),
        ("17 replicas are not", |k| if k.replicas.len() == 17 { 0 } else { right_limit(k) }),
        ("64 ranges are too many", |k| if k.ranges.len() == 64 { 12 } else { right_limit(k) }),
        ("65 ranges are not", |k| if k.ranges.len() == 65 { 0 } else { right_limit(k) }),
        ("12 before 11", |k| if k.ranges.len() > 64 { 12 } else { right_limit(k) }),
    ];
    for (name, limit) in wrong {
        is_noticed(name, &Fake { limit: Some(limit), ..Fake::default() });
    }
    let wrong: [(&str, Fits); 3] = [
        ("one byte more is needed", |length, room| length < room),
        ("one byte less is enough", |length, room| length <= room + 1),
        ("any buffer is long enough", |_, _| true),
    ];
    for (name, fits) in wrong {
        is_noticed(name, &Fake { fits, ..Fake::default() });
    }
}

/// How many the two knowledges have together, if they are without fault: replicas in the maps, and bounds.
fn together(arguments: &[&[u8]]) -> Option<(usize, usize)> {
    let [first, second] = decoded(arguments.try_into().ok()?)?;
    let (mut replicas, mut bounds) = (first.replica_set(), first.bounds());
    replicas.extend(second.replica_set());
    bounds.extend(second.bounds());
    Some((replicas.len(), bounds.len()))
}

#[test]
fn an_engine_that_gives_a_wrong_number_is_noticed() {
    let wrong: [(&str, Number); 10] = [
        ("14 before all others", |_, room, number| if room < 113 { 14 } else { number }),
        ("14 before 11", |_, room, number| if number == 11 && room == 0 { 14 } else { number }),
        ("14 before 12", |_, room, number| if number == 12 && room == 0 { 14 } else { number }),
        (
            "14 where the longest does not fit",
            |_, room, number| if room < LONGEST && number == 0 { 14 } else { number },
        ),
        ("11 by the maps", |arguments, _, number| match together(arguments) {
            Some((17.., _)) => 11,
            _ => number,
        }),
        ("12 by the bounds", |arguments, _, number| match together(arguments) {
            Some((_, 65..)) if number == 0 => 12,
            _ => number,
        }),
        ("the second first", |arguments, _, number| match arguments {
            [_, second] => reference::check(second).err().unwrap_or(number),
            _ => number,
        }),
        ("17 first", |arguments, _, number| match arguments {
            [_, first, last] if ends([first, last]).is_none() => 17,
            _ => number,
        }),
        ("17 after the result", |arguments, _, number| match arguments {
            [_, first, last] if number == 17 && ends([last, first]).is_some() => 14,
            _ => number,
        }),
        ("a span that is not in order is empty", |arguments, _, number| match arguments {
            [_, first, last] if number == 17 && ends([last, first]).is_some() => 0,
            _ => number,
        }),
    ];
    for (name, number) in wrong {
        is_noticed(name, &Fake { number, ..Fake::default() });
    }
}

#[test]
fn an_engine_that_writes_too_much_is_noticed() {
    let wrong: [(&str, Meddle); 5] = [
        ("the rest cleared", |number, out, written| {
            if number == 0 {
                out[*written as usize..].fill(0);
            }
        }),
        ("a byte on 14", |number, out, _| {
            if number == 14 && !out.is_empty() {
                out[0] = 5;
            }
        }),
        ("a byte on 11", |number, out, _| {
            if number == 11 && !out.is_empty() {
                out[out.len() - 1] = 5;
            }
        }),
        ("the length on 14", |number, _, written| {
            if number == 14 {
                *written = 0;
            }
        }),
        ("the length on 17", |number, _, written| {
            if number == 17 {
                *written = 0;
            }
        }),
    ];
    for (name, meddle) in wrong {
        is_noticed(name, &Fake { meddle, ..Fake::default() });
    }
}

#[test]
fn what_never_occurs_is_noticed() {
    let plan = Plan { inputs: 20, ..PLAN };
    assert!(run(&plan, &Fake::default()).unwrap_err().contains("never occurred"));
}
