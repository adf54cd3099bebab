//! Clock vectors for which the engine has the same word, the same hash or the same half of a word, and which are unlike or not.

use super::{AnyCall, End, Side, Visit, room, side};
use crate::knowledge::{Knowledge, item_id, replica_id};
use crate::limits::backwards;
use crate::meaning::LAST_ITEM;
use crate::reading::Reading;
use crate::replication::ALL;
use crate::splitmix::SplitMix64;
use crate::store::{Batch, Store};
use crate::stores::record;
use crate::worst::{merged_words_alike, shuffled, vectors_backwards, words_alike};
use crate::writing::Writing;

const ALIKE: [&str; 5] =
    ["words alike", "words alike, other replicas", "hashes alike", "lower halves alike", "upper halves alike"];
const MERGED: &str = "words of rows alike";
const EQUAL: &str = "two vectors equal";
const EQUAL_IN_STORE: &str = "two vectors equal, in a store";
const EQUAL_IN_BATCH: &str = "two vectors equal, in a batch";

pub const SIDES: [Side; 9] = [
    side(ALIKE[0], End::Answer),
    side(ALIKE[1], End::Answer),
    side(ALIKE[2], End::Answer),
    side(ALIKE[3], End::Answer),
    side(ALIKE[4], End::Answer),
    side(MERGED, End::Answer),
    side(EQUAL, End::Answer),
    side(EQUAL_IN_STORE, End::Refused(15)),
    side(EQUAL_IN_BATCH, End::Refused(16)),
];

/// The constant with which the engine mixes elements into the word of a vector, and folds that into its hash.
const FACTOR: u64 = 2_654_435_761;
const HALF: u64 = 1 << 32;

/// The engine's word of a vector whose elements are by rising key.
pub fn word(vector: &[(u32, u64)]) -> u64 {
    vector.iter().fold(0, |word, (key, tick)| {
        let spread = (word % HALF) * FACTOR + word / HALF;
        spread.wrapping_add(*tick).wrapping_add(u64::from(*key) * HALF)
    })
}

/// The engine's hash of a vector: its word, folded into half of the bits.
pub fn hash(vector: &[(u32, u64)]) -> u64 {
    let word = word(vector);
    (word % HALF).wrapping_add((word / HALF).wrapping_mul(FACTOR)) % HALF
}

pub fn draw(random: &mut SplitMix64, visit: &mut Visit) -> Result<(), String> {
    let (r, g) = sizes(random);
    let typical = &spread(Knowledge::filled(r, g + 1, g));
    let mut alike = [
        words_alike(typical, random.below(r - 1) as u32),
        solved(random, typical),
        hashes_alike(typical),
        lower_alike(typical),
        upper_alike(typical),
    ];
    for (name, knowledge) in ALIKE.into_iter().zip(&mut alike) {
        if random.once_in(2) {
            random.shuffle(&mut knowledge.vectors[1..]);
        }
        written(random, name, knowledge, visit)?;
        opened(random, [name; 2], knowledge, visit)?;
    }
    for mut equal in alike.into_iter().take(3) {
        let (from, to) = (1 + random.below(g), 1 + random.below(g));
        equal.vectors[to] = equal.vectors[from].clone();
        if from != to && random.once_in(2) {
            written(random, EQUAL, &equal, visit)?;
            opened(random, [EQUAL_IN_STORE, EQUAL_IN_BATCH], &equal, visit)?;
        }
    }
    merged(random, r, g.min(32), visit)
}

/// Counts of replicas and ranges, mostly small ones.
fn sizes(random: &mut SplitMix64) -> (usize, usize) {
    match random.below(32) {
        0 => (random.between(2, 16), random.between(2, 64)),
        1..=3 => (16, random.between(2, 8)),
        _ => (random.between(2, 5), random.between(2, 8)),
    }
}

/// The same with ids between its bounds.
fn spread(mut knowledge: Knowledge) -> Knowledge {
    for (place, (bound, _)) in knowledge.ranges.iter_mut().enumerate() {
        *bound = item_id(2 * place as u128);
    }
    knowledge
}

/// The same with vectors that are unlike in the last column only, which is changed by the number of the vector.
fn last_column(knowledge: &Knowledge, tick: impl Fn(u64, &[(u32, u64)]) -> u64) -> Knowledge {
    let mut other = knowledge.clone();
    for (number, vector) in (0..).zip(&mut other.vectors).skip(1) {
        vector.iter_mut().for_each(|(_, tick)| *tick = 7000);
        let tick = tick(number, vector);
        vector.last_mut().expect("there are two columns or more").1 = tick;
    }
    other
}

/// Words whose lower halves are alike.
fn lower_alike(knowledge: &Knowledge) -> Knowledge {
    last_column(knowledge, |number, _| 7000 + number * HALF)
}

/// Words whose upper halves are alike, as far as adding the tick does not carry.
fn upper_alike(knowledge: &Knowledge) -> Knowledge {
    last_column(knowledge, |number, _| 7000 + number)
}

/// Unlike words whose hashes are alike: as much more in the upper half, times the factor, is taken from the lower one.
fn hashes_alike(knowledge: &Knowledge) -> Knowledge {
    last_column(knowledge, |number, vector| {
        let word = word(vector);
        let lower = (word % HALF).wrapping_sub(number.wrapping_mul(FACTOR)) % HALF;
        7000 + number * HALF + lower - word % HALF
    })
}

/// Vectors of any replicas and ticks but for the last one, which makes all words alike. The last vector has all replicas.
fn solved(random: &mut SplitMix64, knowledge: &Knowledge) -> Knowledge {
    let mut other = knowledge.clone();
    let (r, last) = (knowledge.replicas.len() as u32, knowledge.vectors.len() - 1);
    // Far above what the first elements add up to, and far enough below the largest tick.
    let target = (1 << 61) + random.next_u64() % (1 << 60);
    for number in 1..=last {
        loop {
            let keys = (0..r).filter(|_| number == last || random.once_in(2)).collect::<Vec<u32>>();
            let Some((last_key, keys)) = keys.split_last() else { continue };
            let mut vector: Vec<(u32, u64)> = keys.iter().map(|key| (*key, random.between(1, 9000) as u64)).collect();
            vector.push((*last_key, 0));
            let tick = target.wrapping_sub(word(&vector));
            vector[keys.len()].1 = tick;
            if (1..=i64::MAX as u64).contains(&tick) && !other.vectors[..number].contains(&vector) {
                other.vectors[number] = vector;
                break;
            }
        }
    }
    other
}

/// Normalises it, as it is or in another order, projects it, or merges it with itself in another order.
fn written(
    random: &mut SplitMix64,
    side: &'static str,
    knowledge: &Knowledge,
    visit: &mut Visit,
) -> Result<(), String> {
    let other = match random.below(4) {
        0 => vectors_backwards(knowledge),
        1 => shuffled(knowledge),
        2 => backwards(knowledge),
        _ => knowledge.clone(),
    };
    let (bytes, other, room) = (&knowledge.bytes(), &other.bytes(), room(random));
    let first_item = &random.choose(&knowledge.ranges).0;
    let call = match random.below(4) {
        0 => Writing::Merge { first: bytes, second: other, room },
        1 => Writing::Project { knowledge: other, first_item, last_item: &LAST_ITEM, room },
        _ => Writing::Normalise { knowledge: other, room },
    };
    visit(side, AnyCall::Writing(call))
}

/// The knowledge in a store and in a batch, each with its side.
fn opened(
    random: &mut SplitMix64,
    [in_store, in_batch]: [&'static str; 2],
    knowledge: &Knowledge,
    visit: &mut Visit,
) -> Result<(), String> {
    let mut draw = |item: u128| record(random, knowledge, item_id(3 * item));
    let records = (0..4).filter_map(&mut draw).collect();
    let store = Store { own: replica_id(77), knowledge: knowledge.clone(), records };
    let empty = Store::new(replica_id(78));
    let item = &item_id(3 * random.below(4) as u128);
    let (bytes, batch) = (&store.bytes(), &Batch::whole(&empty).bytes());
    let call = match random.once_in(2) {
        true => Reading::Knowledge { store: bytes },
        false => Reading::Winner { store: bytes, batch, item },
    };
    visit(in_store, AnyCall::Reading(call))?;
    let batch = &batch_of(random, store).bytes();
    let call = match random.once_in(2) {
        true => Reading::Learned { batch },
        false => Reading::Winner { store: &empty.bytes(), batch, item },
    };
    visit(in_batch, AnyCall::Reading(call))
}

/// A batch that teaches all of a store, or needs what it knows.
fn batch_of(random: &mut SplitMix64, store: Store) -> Batch {
    let ([first, last], none) = (ALL, Knowledge::smallest());
    let Store { knowledge, records, .. } = store;
    match random.once_in(4) {
        true => Batch { first, last, needed: knowledge, learned: none, records: Vec::new() },
        false => Batch { first, last, needed: none, learned: knowledge, records },
    }
}

/// Merges two knowledges of whose rows all but one have the same word.
fn merged(random: &mut SplitMix64, r: usize, g: usize, visit: &mut Visit) -> Result<(), String> {
    let [first, mut second] = merged_words_alike(&spread(Knowledge::filled(r, g + 1, g)), random.below(r - 1) as u32);
    second.ranges.iter_mut().for_each(|(bound, _)| bound[23] += 1);
    let (first, second) = if random.once_in(2) { (first, second) } else { (second, first) };
    let (first, second, room) = (&first.bytes(), &second.bytes(), room(random));
    visit(MERGED, AnyCall::Writing(Writing::Merge { first, second, room }))
}
