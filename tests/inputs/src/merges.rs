//! Merges of two knowledges with the same replicas and bounds, whose two ticks at each place are drawn for that place: which of them is
//! the larger is a coin toss.

use crate::knowledge::Knowledge;
use crate::limits::backwards;
use crate::splitmix::SplitMix64;
use crate::writing::{Room, Visit, Writing};

/// Replicas and ranges: the fewest that have a place with a tick, some, and the most.
const SIZES: [(usize, usize); 3] = [(1, 1), (4, 8), (16, 64)];

/// How many merges there are of each sort and of each pair, at each size.
const EACH: usize = 2_000;

const LARGEST_TICK: u64 = i64::MAX as u64;

/// Two ticks at one place, with the name of the family; 0 stands for none.
const PAIRS: [(&str, [u64; 2]); 3] = [
    ("merged ticks none and 1", [0, 1]),
    ("merged ticks the largest and the one before", [LARGEST_TICK - 1, LARGEST_TICK]),
    ("merged ticks both the largest", [LARGEST_TICK, LARGEST_TICK]),
];

/// The calls that are the same in every run.
pub fn fixed(visit: &mut Visit) -> Result<(), String> {
    let random = &mut SplitMix64::new(11);
    for size in SIZES {
        for k in 0..EACH {
            merge("merged ticks at random", k, drawn_pair(size, || either(random)), visit)?;
        }
        for k in 0..EACH {
            merge(
                "merged ticks at random, every other time equal",
                k,
                drawn_pair(size, || often_equal(random)),
                visit,
            )?;
        }
        for (family, ticks) in PAIRS {
            for k in 0..EACH {
                let mut knowledges = drawn_pair(size, || either(random));
                place(&mut knowledges, k / 2, ticks);
                merge(family, k, knowledges, visit)?;
            }
        }
    }
    Ok(())
}

/// Merges them, every other time with the second's replicas, elements and vectors in the opposite order.
fn merge(family: &'static str, k: usize, [first, second]: [Knowledge; 2], visit: &mut Visit) -> Result<(), String> {
    let second = if k % 2 == 1 { backwards(&second) } else { second };
    visit(family, Writing::Merge { first: &first.bytes(), second: &second.bytes(), room: Room::More(0) })
}

/// Two knowledges of so many replicas and ranges, with two ticks drawn for each place.
pub fn drawn_pair((replicas, ranges): (usize, usize), mut draw: impl FnMut() -> [u64; 2]) -> [Knowledge; 2] {
    let mut first = Knowledge::filled(replicas, ranges + 1, ranges);
    let mut second = first.clone();
    for ((_, one), (_, other)) in first.vectors.iter_mut().flatten().zip(second.vectors.iter_mut().flatten()) {
        [*one, *other] = draw();
    }
    [first, second]
}

/// Two ticks with the same number of random bits.
fn either(random: &mut SplitMix64) -> [u64; 2] {
    let unused = random.between(1, 63);
    [(); 2].map(|()| random.next_u64() >> unused)
}

fn often_equal(random: &mut SplitMix64) -> [u64; 2] {
    let [one, other] = either(random);
    if random.once_in(2) { [one, one] } else { [one, other] }
}

/// Puts two ticks in either order at one place: the first or the last replica, in the first or the last range. Eight numbers in a row
/// have every choice once.
fn place(knowledges: &mut [Knowledge; 2], choice: usize, ticks: [u64; 2]) {
    let [other_order, last_replica, last_range] = [1, 2, 4].map(|bit| choice & bit > 0);
    let ticks = if other_order { [ticks[1], ticks[0]] } else { ticks };
    for (knowledge, tick) in knowledges.iter_mut().zip(ticks) {
        let key = if last_replica { knowledge.replicas.len() as u32 - 1 } else { 0 };
        let (_, index) = if last_range { knowledge.ranges[knowledge.ranges.len() - 1] } else { knowledge.ranges[0] };
        let vector = &mut knowledge.vectors[index as usize];
        vector.iter_mut().filter(|(other, _)| *other == key).for_each(|(_, old)| *old = tick);
        vector.retain(|(other, _)| *other != key || tick > 0);
    }
}

#[cfg(test)]
mod tests {
    use std::cmp::Ordering;
    use std::collections::BTreeMap;

    use super::*;
    use crate::meaning::{ItemId, ReplicaId};

    /// What is known at the ends of both: the first and the last replica, in the first and the last range.
    fn at_the_ends([first, second]: &[Knowledge; 2]) -> Vec<(ItemId, ReplicaId, [u64; 2])> {
        let mut found = Vec::new();
        for (bound, _) in [first.ranges[0], first.ranges[first.ranges.len() - 1]] {
            for id in [first.replicas[0], first.replicas[first.replicas.len() - 1]] {
                found.push((bound, id, [first.known(&bound, &id), second.known(&bound, &id)]));
            }
        }
        found
    }

    #[test]
    fn there_are_enough_of_each_sort_at_each_size() {
        let mut counts: BTreeMap<(&str, usize), usize> = BTreeMap::new();
        fixed(&mut |family, call| {
            let Writing::Merge { first, .. } = call else { panic!("{call:?} is no merge") };
            *counts.entry((family, Knowledge::decoded(first).ranges.len())).or_default() += 1;
            Ok(())
        })
        .unwrap();
        assert_eq!(counts.len(), (2 + PAIRS.len()) * SIZES.len());
        assert!(counts.values().all(|count| *count >= 2_000), "{counts:?}");
    }

    #[test]
    fn either_tick_is_often_the_larger_and_equal_ones_are_as_often_as_it_says() {
        for (draw, equal) in [(either as fn(&mut _) -> _, 0..100), (often_equal, 500..600)] {
            let random = &mut SplitMix64::new(2);
            let pairs: Vec<[u64; 2]> = (0..1000).map(|_| draw(random)).collect();
            let [less, same, greater] = [Ordering::Less, Ordering::Equal, Ordering::Greater]
                .map(|order| pairs.iter().filter(|[one, other]| one.cmp(other) == order).count());
            assert!(equal.contains(&same), "{same}");
            assert!(less.abs_diff(greater) < 100, "{less} {greater}");
        }
    }

    #[test]
    fn each_pair_stands_at_each_end_in_either_order() {
        for size in SIZES {
            for (family, ticks) in PAIRS {
                let random = &mut SplitMix64::new(3);
                let mut seen = Vec::new();
                for choice in 0..8 {
                    let mut knowledges = drawn_pair(size, || either(random));
                    place(&mut knowledges, choice, ticks);
                    let either_order = |place: &(_, _, [u64; 2])| place.2 == ticks || place.2 == [ticks[1], ticks[0]];
                    seen.extend(at_the_ends(&knowledges).into_iter().filter(either_order));
                }
                seen.sort();
                seen.dedup();
                let orders = if ticks[0] == ticks[1] { 1 } else { 2 };
                let places = size.0.min(2) * size.1.min(2);
                assert_eq!(seen.len(), places * orders, "{family} at {size:?}");
            }
        }
    }
}
