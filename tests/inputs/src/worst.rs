//! Knowledges of a given size on which a call may take longest.
//!
//! The engine has a word for each clock vector and for each row of ticks, and compares two of these only where their words
//! are alike. A word is mixed column by column: its lower half times a constant, its upper half, and the tick are added up.
//! So 2^32 more in a column and 1 less in the next one leave the word as it was, whatever the constant is. The reference
//! has a hash: the sum of all ticks, each times the factor of its column. The factors of the first column and of the third
//! are as 1 to 3.

use crate::knowledge::{Knowledge, replica_id};
use crate::meaning::ReplicaId;
use crate::splitmix::SplitMix64;

/// The tick where all vectors are alike, and one from which the others fall.
const ALIKE: u64 = 7000;
const HIGH: u64 = ALIKE + 200;

/// The same with other ticks, by the number of the vector, from 1 on, and the key.
fn with_ticks(knowledge: &Knowledge, tick: impl Fn(u64, u32) -> u64) -> Knowledge {
    let mut other = knowledge.clone();
    for (number, vector) in (0..).zip(&mut other.vectors) {
        vector.iter_mut().for_each(|(key, known)| *known = tick(number, *key));
    }
    other
}

/// The same with vectors that all have the same word in the engine. They are unlike in the columns of a key and the next
/// one only.
pub fn words_alike(knowledge: &Knowledge, first_key: u32) -> Knowledge {
    words_alike_by(knowledge, first_key, |number| number)
}

/// Two of them. Where each bound of the second is behind that of the first and before the next, all rows of both merged
/// have the same word, and no two are alike: in the first column the larger tick is that of the later bound, in the next
/// one that of the earlier.
pub fn merged_words_alike(knowledge: &Knowledge, first_key: u32) -> [Knowledge; 2] {
    [0, 1].map(|more| words_alike_by(knowledge, first_key, |number| 2 * number + more))
}

fn words_alike_by(knowledge: &Knowledge, first_key: u32, step: impl Fn(u64) -> u64) -> Knowledge {
    with_ticks(knowledge, |number, key| match key.checked_sub(first_key) {
        Some(0) => ALIKE + (step(number) << 32),
        Some(1) => HIGH - step(number),
        _ => ALIKE,
    })
}

/// The same with vectors that all have the same hash in the reference. They are unlike in the first and the third column
/// only.
pub fn hashes_alike(knowledge: &Knowledge) -> Knowledge {
    with_ticks(knowledge, |number, key| match key {
        0 => ALIKE + 3 * number,
        2 => HIGH - number,
        _ => ALIKE,
    })
}

/// The same with vectors that are unlike in the column of a key only.
pub fn alike_but_for(knowledge: &Knowledge, unlike: u32) -> Knowledge {
    with_ticks(knowledge, |number, key| if key == unlike { HIGH - number } else { ALIKE })
}

/// The same ticks with the vectors in the opposite order.
pub fn vectors_backwards(knowledge: &Knowledge) -> Knowledge {
    let mut other = knowledge.clone();
    let v = other.vectors.len() as u32;
    other.vectors[1..].reverse();
    for (_, index) in other.ranges.iter_mut().filter(|(_, index)| *index > 0) {
        *index = v - *index;
    }
    other
}

/// The same ticks with replicas, elements and vectors in any order.
pub fn shuffled(knowledge: &Knowledge) -> Knowledge {
    let random = &mut SplitMix64::new(1);
    let mut order = |from: u32, to: usize| {
        let mut order: Vec<u32> = (from..to as u32).collect();
        random.shuffle(&mut order);
        order
    };
    let (keys, indices) = (order(0, knowledge.replicas.len()), order(1, knowledge.vectors.len()));
    let place =
        |order: &[u32], number: u32| order.iter().position(|other| *other == number).expect("it is one of them");
    let mut other = knowledge.clone();
    other.replicas = keys.iter().map(|key| knowledge.replicas[*key as usize]).collect();
    for (vector, index) in other.vectors[1..].iter_mut().zip(&indices) {
        vector.clone_from(&knowledge.vectors[*index as usize]);
        vector.iter_mut().for_each(|(key, _)| *key = place(&keys, *key) as u32);
        random.shuffle(vector);
    }
    for (_, index) in other.ranges.iter_mut().filter(|(_, index)| *index > 0) {
        *index = 1 + place(&indices, *index) as u32;
    }
    other
}

/// The same with the first replica in the first vector only, so that no other element stands where its key says.
pub fn first_replica_missing(knowledge: &Knowledge) -> Knowledge {
    let mut other = knowledge.clone();
    other.vectors.iter_mut().skip(2).for_each(|vector| vector.retain(|(key, _)| *key > 0));
    other
}

/// A normal form with half as many vectors as ranges, and one: they are used in order, and then most of them again, in
/// order or backwards.
pub fn used_twice(r: usize, g: usize, backwards: bool) -> Knowledge {
    let half = g / 2 + 1;
    let mut knowledge = Knowledge::filled(r, half + 1, g);
    for (place, (_, index)) in knowledge.ranges.iter_mut().enumerate().skip(half) {
        *index = if backwards { 2 * half - 1 - place } else { place - half + 1 } as u32;
    }
    knowledge
}

/// The small number of an id one byte further to the front, so that neither end tells two of them apart.
pub fn id_alike_at_both_ends(id: &ReplicaId) -> ReplicaId {
    replica_id(u128::from_be_bytes(*id) << 8)
}

/// The same with such ids.
pub fn ids_alike_at_both_ends(knowledge: &Knowledge) -> Knowledge {
    let replicas = knowledge.replicas.iter().map(id_alike_at_both_ends).collect();
    Knowledge { replicas, ..knowledge.clone() }
}

#[cfg(test)]
mod tests {
    use std::collections::BTreeSet;

    use super::*;
    use crate::knowledge::item_id;
    use crate::limits::backwards;

    const SIZES: [(usize, usize); 2] = [(4, 8), (16, 64)];

    fn filled(r: usize, g: usize) -> Knowledge {
        Knowledge::filled(r, g + 1, g)
    }

    /// How many different values the vectors but the empty one have.
    fn count<T: Ord>(knowledge: &Knowledge, value: impl Fn(&[(u32, u64)]) -> T) -> usize {
        knowledge.vectors[1..].iter().map(|vector| value(vector)).collect::<BTreeSet<_>>().len()
    }

    /// The engine's word of a vector, with the constant, and what is added for a key.
    fn word(vector: &[(u32, u64)], constant: u64, for_key: u64) -> u64 {
        let mut by_key = vector.to_vec();
        by_key.sort_unstable();
        by_key.iter().fold(0, |word: u64, (key, tick)| {
            let spread = (word % (1 << 32)) * constant + (word >> 32);
            spread.wrapping_add(*tick).wrapping_add(u64::from(*key) * for_key)
        })
    }

    #[test]
    fn words_are_alike_and_vectors_are_not() {
        for (r, g) in SIZES {
            for typical in [filled(r, g), backwards(&filled(r, g))] {
                for first_key in 0..r as u32 - 1 {
                    let alike = words_alike(&typical, first_key);
                    assert_eq!(count(&alike, <[_]>::to_vec), g);
                    assert_eq!(count(&alike, |vector| word(vector, 2_654_435_761, 1 << 32)), 1, "those of vectors");
                    assert_eq!(count(&alike, |vector| word(vector, 2_654_435_769, 0)), 1, "those of rows");
                }
                assert_eq!(count(&typical, |vector| word(vector, 2_654_435_761, 1 << 32)), g);
            }
        }
    }

    #[test]
    fn hashes_are_alike_and_vectors_are_not() {
        let factor = |key: u32| (u64::from(key) + 1).wrapping_mul(0x9e37_79b9_7f4a_7c15) | 1;
        let hash = |vector: &[(u32, u64)]| {
            vector.iter().fold(0, |hash: u64, (key, tick)| hash.wrapping_add(tick.wrapping_mul(factor(*key))))
        };
        for (r, g) in SIZES {
            let alike = hashes_alike(&filled(r, g));
            assert_eq!((count(&alike, <[_]>::to_vec), count(&alike, hash)), (g, 1));
            assert_eq!(count(&filled(r, g), hash), g);
        }
    }

    #[test]
    fn they_are_as_long_as_the_typical_one() {
        for (r, g) in SIZES {
            let typical = &filled(r, g);
            let last = r as u32 - 1;
            let normal = [
                words_alike(typical, 0),
                words_alike(typical, last - 1),
                hashes_alike(typical),
                alike_but_for(typical, 0),
                alike_but_for(typical, last),
                ids_alike_at_both_ends(typical),
            ];
            assert!(normal.iter().all(Knowledge::is_normal));
            let others = [vectors_backwards(typical), shuffled(typical)];
            for other in normal.iter().chain(&others) {
                assert_eq!(other.bytes().len(), typical.bytes().len());
            }
            assert!(others.iter().all(|other| other != typical && other.normalised() == *typical));
            assert!(first_replica_missing(typical).is_normal());
        }
    }

    #[test]
    fn words_of_both_merged_are_alike_and_rows_are_not() {
        for (r, g) in SIZES {
            let [mut first, mut second] = merged_words_alike(&filled(r, g), 0);
            for (number, (first, second)) in (0..).zip(first.ranges.iter_mut().zip(&mut second.ranges)) {
                (first.0, second.0) = (item_id(2 * number), item_id(2 * number + 1));
            }
            let merged = first.merged(&second);
            assert_eq!(count(&merged, <[_]>::to_vec), 2 * g);
            // Before the second's first bound there is the first one's vector only.
            assert_eq!(count(&merged, |vector| word(vector, 2_654_435_769, 0)), 2);
        }
    }

    #[test]
    fn vectors_are_used_twice_in_either_order() {
        let indices =
            |backwards| -> Vec<u32> { used_twice(4, 8, backwards).ranges.iter().map(|range| range.1).collect() };
        assert_eq!(indices(false), [1, 2, 3, 4, 5, 1, 2, 3]);
        assert_eq!(indices(true), [1, 2, 3, 4, 5, 4, 3, 2]);
        for (r, g) in SIZES {
            assert!([false, true].iter().all(|backwards| used_twice(r, g, *backwards).is_normal()));
        }
    }
}
