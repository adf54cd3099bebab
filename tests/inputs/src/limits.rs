//! Knowledges whose results are at the limits of 16 replicas and 64 ranges, or beyond, and results that have few ranges left.

use crate::knowledge::{Knowledge, item_id, replica_id};
use crate::meaning::{FIRST_ITEM, ItemId, LAST_ITEM, item_before};
use crate::splitmix::SplitMix64;
use crate::writing::{Room, Visit, Writing};

const REPLICAS: usize = 16;
const RANGES: usize = 64;

const ROOMS: [Room; 3] = [Room::More(0), Room::Less(1), Room::Bytes(0)];

/// The calls that are the same in every run.
pub fn fixed(visit: &mut Visit) -> Result<(), String> {
    normalised(visit)?;
    merged_replicas(visit)?;
    merged_ranges(visit)?;
    projected(visit)?;
    joined(visit)
}

/// So many replicas from a first one on, in ranges that start at the given items. No two ranges know the same ticks.
fn knowing(first_replica: usize, replicas: usize, bounds: impl IntoIterator<Item = u128>) -> Knowledge {
    let bounds: Vec<u128> = bounds.into_iter().collect();
    let mut knowledge = Knowledge::filled(replicas, bounds.len() + 1, bounds.len());
    knowledge.replicas = (first_replica..).take(replicas).map(|id| replica_id(id as u128)).collect();
    for ((place, _), bound) in knowledge.ranges.iter_mut().zip(bounds) {
        *place = item_id(bound);
    }
    knowledge
}

/// The same ticks with replicas, elements and vectors in the opposite order.
pub fn backwards(knowledge: &Knowledge) -> Knowledge {
    let mut other = knowledge.clone();
    let (r, v) = (other.replicas.len() as u32, other.vectors.len() as u32);
    other.replicas.reverse();
    other.vectors[1..].reverse();
    for vector in &mut other.vectors {
        vector.reverse();
        vector.iter_mut().for_each(|(key, _)| *key = r - 1 - *key);
    }
    for (_, index) in other.ranges.iter_mut().filter(|(_, index)| *index > 0) {
        *index = v - *index;
    }
    other
}

/// The same knowledge with rows that differ in the tick of the last replica only.
pub fn alike_but_for_the_last(knowledge: &Knowledge) -> Knowledge {
    let mut other = knowledge.clone();
    let last = other.replicas.len().saturating_sub(1) as u32;
    for (key, tick) in other.vectors.iter_mut().flatten() {
        if *key != last {
            *tick = 7;
        }
    }
    other
}

/// Knowledges with more replicas, vectors or elements than say something, and with ranges alike in different ways.
pub fn unusual() -> Vec<Knowledge> {
    let largest = Knowledge::largest();
    let few = Knowledge::filled(5, 7, 6);
    let mut all_zero = few.clone();
    all_zero.vectors.iter_mut().flatten().for_each(|(_, tick)| *tick = 0);
    let mut some_zero = few.clone();
    some_zero.vectors.iter_mut().flatten().for_each(|(key, tick)| *tick *= u64::from(*key != 2));
    let mut unused_vectors = Knowledge::filled(5, 9, 6);
    unused_vectors.ranges.iter_mut().for_each(|(_, index)| *index = 1 + *index % 2);
    let mut largest_ticks = few.clone();
    largest_ticks.vectors.iter_mut().flatten().for_each(|(_, tick)| *tick = i64::MAX as u64);
    let mut alike = few.clone();
    let second = alike.vectors[2].clone();
    alike.vectors[3..].iter_mut().for_each(|vector| vector.clone_from(&second));
    let mut zero_is_nothing = few.clone();
    zero_is_nothing.vectors[2] = zero_is_nothing.vectors[1].clone();
    zero_is_nothing.vectors[2].retain(|(key, _)| *key != 3);
    zero_is_nothing.vectors[1][3].1 = 0;
    let mut empty_between = few.clone();
    empty_between.ranges[0].1 = 0;
    empty_between.ranges[2].1 = 0;
    empty_between.vectors[4].clear();
    let mut first_at_the_top = few.clone();
    first_at_the_top.ranges = vec![(LAST_ITEM, 3)];
    vec![
        backwards(&largest),
        alike_but_for_the_last(&largest),
        backwards(&alike_but_for_the_last(&largest)),
        backwards(&few),
        all_zero,
        some_zero,
        unused_vectors,
        largest_ticks,
        alike,
        zero_is_nothing,
        empty_between,
        first_at_the_top,
    ]
}

/// As many ranges as there may be and one fewer, starting at the first item or later, with a first range that knows something
/// or not, and with neighbours that are alike.
fn normalised(visit: &mut Visit) -> Result<(), String> {
    for ranges in RANGES - 2..=RANGES {
        for start in [0, 1, 1 << 100] {
            for change in 0..5 {
                let mut knowledge = knowing(1, 2, start..start + ranges as u128);
                match change {
                    0 => {}
                    1 => knowledge.ranges[0].1 = 0,
                    2 => knowledge.vectors[1].iter_mut().for_each(|(_, tick)| *tick = 0),
                    3 => knowledge.vectors[2] = knowledge.vectors[1].clone(),
                    _ => knowledge.ranges[ranges - 1].1 = 1,
                }
                let knowledge = &knowledge.bytes();
                for room in ROOMS {
                    visit("normal forms at the limit", Writing::Normalise { knowledge, room })?;
                }
            }
        }
    }
    Ok(())
}

fn merge(first: &Knowledge, second: &Knowledge, visit: &mut Visit) -> Result<(), String> {
    let (first, second) = (&first.bytes(), &second.bytes());
    for room in ROOMS {
        visit("merged at the limits", Writing::Merge { first, second, room })?;
        visit("merged at the limits", Writing::Merge { first: second, second: first, room })?;
    }
    Ok(())
}

/// About 16 replicas in two maps, some in both, some without a tick or in no vector that is used; with few ranges and with
/// about 64, where 11 comes before 12.
fn merged_replicas(visit: &mut Visit) -> Result<(), String> {
    for n in [0, 1, 8, 15, 16] {
        for shared in [0, 1, n] {
            for all in REPLICAS - 1..=REPLICAS + 2 {
                let Some(m) = (all + shared).checked_sub(n) else { continue };
                if shared > n.min(m) || m > REPLICAS {
                    continue;
                }
                let second = 1 + n - shared;
                let few = knowing(second, m, [0, 7]);
                merge(&knowing(1, n, [0, 5]), &few, visit)?;
                merge(&knowing(1, n, [3]), &backwards(&few), visit)?;

                let mut silent = few.clone();
                let last = m.saturating_sub(1) as u32;
                silent.vectors.iter_mut().flatten().filter(|(key, _)| *key == last).for_each(|(_, tick)| *tick = 0);
                merge(&knowing(1, n, [0, 5]), &silent, visit)?;
                let mut unused = few;
                unused.vectors[1].retain(|(key, _)| *key != last);
                unused.ranges[1].1 = 1;
                merge(&knowing(1, n, [0, 5]), &unused, visit)?;

                for ranges in [RANGES - 1, RANGES, RANGES + 1] {
                    let half = ranges as u128 / 2;
                    let odd = (0..ranges as u128 - half).map(|k| 2 * k + 1);
                    merge(&knowing(1, n, (0..half).map(|k| 2 * k)), &knowing(second, m, odd), visit)?;
                }
            }
        }
    }
    Ok(())
}

/// About 64 ranges of two knowledges, some with the same bound, from the first item on or from a later one.
fn merged_ranges(visit: &mut Visit) -> Result<(), String> {
    for n in [1, 2, 31, 32, 33, 63, 64] {
        for shared in [0, 1, n] {
            for all in RANGES - 1..=RANGES + 2 {
                let Some(m) = (all + shared).checked_sub(n) else { continue };
                if shared > n.min(m) || m > RANGES {
                    continue;
                }
                for start in [0, 1] {
                    let first = (0..n as u128).map(|k| start + 4 * k);
                    let second =
                        (0..m as u128).map(|k| if k < shared as u128 { start + 4 * k } else { start + 4 * k + 2 });
                    let (first, second) = (knowing(1, 2, first), knowing(2, 2, second));
                    merge(&first, &second, visit)?;
                    merge(&backwards(&first), &alike_but_for_the_last(&second), visit)?;
                }
            }
        }
    }
    Ok(())
}

/// Spans that start and end at a bound, next to one or within a range, of about 64 ranges.
fn projected(visit: &mut Visit) -> Result<(), String> {
    for ranges in RANGES - 3..=RANGES {
        for start in [0, 5] {
            let bounds = || (0..ranges as u128).map(|k| start + 10 * k);
            let knowledge = &knowing(3, 2, bounds()).bytes();
            let last = start + 10 * (ranges as u128 - 1);
            let ends = [last - 10, last - 2, last - 1, last, last + 4].map(item_id);
            let top = item_before(&LAST_ITEM).expect("the last item is not the first");
            for first_item in [0, 1, start, start + 1, start + 9, start + 10, start + 13].map(item_id) {
                for last_item in ends.iter().chain([&top, &LAST_ITEM]) {
                    for room in ROOMS {
                        let first_item = &first_item;
                        let call = Writing::Project { knowledge, first_item, last_item, room };
                        visit("parts at the limit", call)?;
                    }
                }
            }
        }
    }
    Ok(())
}

/// Results that join down to one range or a few, from as many as there may be.
fn joined(visit: &mut Visit) -> Result<(), String> {
    const FAMILY: &str = "joined to few ranges";
    let every = || knowing(1, 3, (0..RANGES as u128).map(|k| 3 * k));
    let alike = |indices: fn(usize) -> bool| {
        let mut knowledge = every();
        let vector = knowledge.vectors[1].clone();
        for (place, (_, index)) in knowledge.ranges.iter_mut().enumerate() {
            if !indices(place) {
                *index = 0;
            }
        }
        knowledge.vectors[1..].iter_mut().for_each(|other| other.clone_from(&vector));
        knowledge
    };
    let mut greatest = knowing(1, 3, [0]);
    greatest.vectors[1].iter_mut().for_each(|(_, tick)| *tick = i64::MAX as u64);
    let (all, even, odd) = (alike(|_| true), alike(|place| place % 2 == 0), alike(|place| place % 2 == 1));
    let knowledges = [all, even, odd, greatest, every()];
    for first in &knowledges {
        for second in &knowledges {
            merge(first, second, visit)?;
        }
        let knowledge = &first.bytes();
        for room in ROOMS {
            visit(FAMILY, Writing::Normalise { knowledge, room })?;
            let item: fn(u128) -> ItemId = item_id;
            for (first_item, last_item) in
                [(FIRST_ITEM, LAST_ITEM), (item(3), item(3)), (item(1), item(190)), (item(188), LAST_ITEM)]
            {
                let (first_item, last_item) = (&first_item, &last_item);
                visit(FAMILY, Writing::Project { knowledge, first_item, last_item, room })?;
            }
        }
    }
    Ok(())
}

/// Two random knowledges that have together about as many replicas and bounds as the limits allow.
pub fn pair(random: &mut SplitMix64) -> (Knowledge, Knowledge) {
    let replicas = random.between(REPLICAS - 3, REPLICAS + 3);
    let bounds = random.between(RANGES - 10, RANGES + 16);
    let start = random.below(2);
    let mut one = || large(random, replicas, start..start + bounds);
    (one(), one())
}

/// A random knowledge with many of the replicas below a number, at many of the bounds, in any order; seldom in normal form.
fn large(random: &mut SplitMix64, replicas: usize, bounds: std::ops::Range<usize>) -> Knowledge {
    let mut replicas: Vec<_> = (0..replicas as u128).map(replica_id).collect();
    random.shuffle(&mut replicas);
    replicas.truncate(random.between(7, REPLICAS));
    let mut bounds: Vec<u128> = bounds.map(|bound| bound as u128).collect();
    random.shuffle(&mut bounds);
    bounds.truncate(if random.once_in(2) { RANGES } else { random.between(30, RANGES) });
    bounds.sort();
    let often = random.between(1, 3);
    let tick = |random: &mut SplitMix64| random.below(3) as u64 * random.below(50) as u64;
    let mut vector = |vector: usize| -> Vec<(u32, u64)> {
        let keys = if vector == 0 { 0 } else { replicas.len() as u32 };
        (0..keys)
            .map(|key| (key, tick(random)))
            .filter(|(key, _)| key % 5 != 4 || vector.is_multiple_of(often))
            .collect()
    };
    let vectors: Vec<Vec<_>> = (0..=RANGES).map(&mut vector).collect();
    let ranges = bounds.into_iter().map(|bound| (item_id(bound), random.below(RANGES + 1) as u32)).collect();
    Knowledge { replicas, vectors, ranges }
}
