//! Knowledges that are related to another one: the same ticks written in another way, and small changes.

use crate::knowledge::Knowledge;
use crate::limits;
use crate::meaning::{FIRST_ITEM, ItemId, LAST_ITEM, ReplicaId, item_before, next_item};
use crate::splitmix::SplitMix64;

const MOST_REPLICAS: usize = 16;
const MOST_VECTORS: usize = 65;
const MOST_RANGES: usize = 64;

/// Two random knowledges without fault. Often the second has the first's ticks but for a few, so that answers about the two
/// turn on single places.
pub fn pair(random: &mut SplitMix64) -> (Knowledge, Knowledge) {
    let first = one(random);
    let mut second = match random.below(8) {
        0 => one(random),
        1 => first.clone(),
        2 => within_limits(first.normalised()).unwrap_or_else(|| first.clone()),
        _ => relaid(random, &first),
    };
    match random.below(4) {
        0 => {}
        1 => lower(random, &mut second),
        _ => {
            for _ in 0..random.between(1, 2) {
                change(random, &mut second);
            }
        }
    }
    if random.once_in(2) { (first, second) } else { (second, first) }
}

/// Three random knowledges without fault that have much in common, and four items that do not fall: the ends of a span and those of
/// a part of it.
pub struct Three {
    pub knowledges: [Knowledge; 3],
    pub items: [ItemId; 4],
}

impl Three {
    pub fn new(random: &mut SplitMix64) -> Self {
        let (first, second) = if random.once_in(8) { limits::pair(random) } else { pair(random) };
        let mut third = match random.below(4) {
            0 => one(random),
            1 => first.projected(&item(random, [&first, &second]), &LAST_ITEM),
            _ => relaid(random, &second),
        };
        lower(random, &mut third);
        let third = within_limits(third).unwrap_or_else(|| first.clone());
        let mut items = [(); 4].map(|()| item(random, [&first, &third]));
        items.sort();
        Self { knowledges: [first, second, third], items }
    }
}

/// Three random knowledges without fault, each of which knows at most what the next one knows: a part of a part, the part, and
/// the whole; or one, merged with a second, and with a third. Their bytes are often not in normal form.
pub fn rising(random: &mut SplitMix64) -> [Knowledge; 3] {
    loop {
        let knowledge = one(random);
        let three = if random.once_in(2) {
            let mut items = [(); 4].map(|()| item(random, [&knowledge; 2]));
            items.sort();
            let part = knowledge.projected(&items[0], &items[3]);
            [part.projected(&items[1], &items[2]), part, knowledge]
        } else {
            let merged = knowledge.merged(&one(random));
            let more = merged.merged(&one(random));
            [knowledge, merged, more]
        };
        if three.iter().all(|knowledge| within_limits(knowledge.clone()).is_some()) {
            return three.map(|knowledge| if random.once_in(2) { relaid(random, &knowledge) } else { knowledge });
        }
    }
}

/// A random knowledge, in normal form once in three times.
fn one(random: &mut SplitMix64) -> Knowledge {
    let knowledge = Knowledge::random(random);
    if random.once_in(3) { within_limits(knowledge.normalised()).unwrap_or(knowledge) } else { knowledge }
}

/// The knowledge, unless it has more of something than a knowledge may have.
fn within_limits(knowledge: Knowledge) -> Option<Knowledge> {
    let within = knowledge.replicas.len() <= MOST_REPLICAS
        && knowledge.vectors.len() <= MOST_VECTORS
        && knowledge.ranges.len() <= MOST_RANGES;
    within.then_some(knowledge)
}

/// The same known ticks in other bytes: another order of replicas, elements and vectors, replicas without a tick, vectors
/// twice, ranges split.
pub fn relaid(random: &mut SplitMix64, knowledge: &Knowledge) -> Knowledge {
    let mut keys: Vec<usize> = (0..knowledge.replicas.len()).collect();
    random.shuffle(&mut keys);
    let mut replicas: Vec<_> = keys.iter().map(|key| knowledge.replicas[*key]).collect();
    let new_key = |key: u32| keys.iter().position(|other| *other == key as usize).expect("keys are in the map") as u32;
    let mut vectors: Vec<Vec<(u32, u64)>> = knowledge
        .vectors
        .iter()
        .map(|vector| vector.iter().map(|(key, tick)| (new_key(*key), *tick)).collect())
        .collect();
    vectors.iter_mut().for_each(|vector| random.shuffle(vector));
    while replicas.len() < MOST_REPLICAS && random.once_in(2) {
        replicas.push(random.bytes());
    }

    let mut order: Vec<usize> = (1..vectors.len()).collect();
    while order.len() + 1 < MOST_VECTORS && random.once_in(2) {
        order.push(random.below(vectors.len()));
    }
    random.shuffle(&mut order);
    order.insert(0, 0);
    let places = |index: u32| -> Vec<usize> {
        let same = |place: &usize| order[*place] == index as usize;
        (0..order.len()).filter(same).collect()
    };
    let mut ranges = Vec::new();
    for (place, (bound, index)) in knowledge.ranges.iter().enumerate() {
        ranges.push((*bound, *random.choose(&places(*index)) as u32));
        let room = MOST_RANGES - knowledge.ranges.len() + place + 1 > ranges.len();
        let next = knowledge.ranges.get(place + 1).map(|(bound, _)| *bound);
        if let Some(inside) = next_item(bound)
            && room
            && next.is_none_or(|next| inside < next)
            && random.once_in(3)
        {
            ranges.push((inside, *random.choose(&places(*index)) as u32));
        }
    }
    if ranges[0].0 != FIRST_ITEM && ranges.len() < MOST_RANGES && random.once_in(2) {
        ranges.insert(0, (FIRST_ITEM, 0));
    }
    let vectors = order.iter().map(|place| vectors[*place].clone()).collect();
    Knowledge { replicas, vectors, ranges }
}

/// Lowers about half of the ticks.
pub fn lower(random: &mut SplitMix64, knowledge: &mut Knowledge) {
    for (_, tick) in knowledge.vectors.iter_mut().flatten() {
        match random.below(4) {
            0 => *tick = tick.saturating_sub(1),
            1 => *tick >>= random.below(64),
            _ => {}
        }
    }
}

/// One small change; where there is no place for the chosen one, none.
pub fn change(random: &mut SplitMix64, knowledge: &mut Knowledge) {
    const LARGEST_TICK: u64 = i64::MAX as u64;
    let vector = random.below(knowledge.vectors.len());
    let elements = &mut knowledge.vectors[vector];
    let range = random.below(knowledge.ranges.len());
    match random.below(8) {
        choice @ 0..=3 if !elements.is_empty() => {
            let place = random.below(elements.len());
            let tick = &mut elements[place].1;
            match choice {
                0 | 1 => *tick = LARGEST_TICK.min(*tick + 1),
                2 => *tick = tick.saturating_sub(1),
                _ => drop(elements.remove(place)),
            }
        }
        4 if vector > 0 => {
            let free = |key: &u32| elements.iter().all(|(other, _)| other != key);
            let free: Vec<u32> = (0..knowledge.replicas.len() as u32).filter(free).collect();
            if !free.is_empty() {
                elements.push((*random.choose(&free), 1));
            }
        }
        5 => knowledge.ranges[range].1 = vector as u32,
        6 => {
            let bound = knowledge.ranges[range].0;
            let moved = if random.once_in(2) { next_item(&bound) } else { item_before(&bound) };
            if let Some(moved) = moved
                && !knowledge.ranges.iter().any(|(other, _)| *other == moved)
            {
                knowledge.ranges[range].0 = moved;
            }
        }
        7 if knowledge.ranges.len() > 1 => drop(knowledge.ranges.remove(range)),
        _ => {}
    }
}

/// An item and a replica, mostly ones of which the two knowledges do not both know tick 0, and often not the same tick.
pub fn place(random: &mut SplitMix64, knowledges: [&Knowledge; 2]) -> (ItemId, ReplicaId) {
    let mut draw = || (item(random, knowledges), replica(random, knowledges));
    let mut place = draw();
    for draws in 0..6 {
        let [first, second] = knowledges.map(|knowledge| knowledge.known(&place.0, &place.1));
        if first != second || (draws >= 3 && first > 0) {
            break;
        }
        place = draw();
    }
    place
}

/// An item id at a bound of one of the knowledges, next to one, at an end, or anywhere.
pub fn item(random: &mut SplitMix64, knowledges: [&Knowledge; 2]) -> ItemId {
    let ranges = &random.choose(&knowledges).ranges;
    let (bound, _) = *random.choose(ranges);
    match random.below(8) {
        0 | 1 => bound,
        2 | 3 => next_item(&bound).unwrap_or(bound),
        4 => item_before(&bound).unwrap_or(bound),
        5 => *random.choose(&[FIRST_ITEM, LAST_ITEM]),
        6 => {
            let mut item = bound;
            item[random.below(24)] ^= 1 << random.below(8);
            item
        }
        _ => random.bytes(),
    }
}

/// A replica id of one of the knowledges, one that differs in a bit, or any.
fn replica(random: &mut SplitMix64, knowledges: [&Knowledge; 2]) -> ReplicaId {
    let replicas = &random.choose(&knowledges).replicas;
    if replicas.is_empty() || random.once_in(16) {
        return random.bytes();
    }
    let mut id = *random.choose(replicas);
    if random.once_in(16) {
        id[random.below(16)] ^= 1 << random.below(8);
    }
    id
}

#[cfg(test)]
mod tests {
    use super::*;

    #[test]
    fn relaid_knowledge_has_the_same_ticks() {
        let random = &mut SplitMix64::new(3);
        let mut other_bytes = 0;
        for _ in 0..1000 {
            let knowledge = Knowledge::random(random);
            let other = relaid(random, &knowledge);
            assert!(within_limits(other.clone()).is_some());
            assert_eq!(other.normalised(), knowledge.normalised());
            other_bytes += usize::from(other != knowledge);
        }
        assert!(other_bytes > 900);
    }

    #[test]
    fn each_of_three_that_rise_knows_at_most_what_the_next_knows() {
        let random = &mut SplitMix64::new(5);
        let mut less = 0;
        for _ in 0..500 {
            let [first, second, third] = rising(random);
            assert!(second.first_lack(&first).is_none() && third.first_lack(&second).is_none());
            less += usize::from(first.first_lack(&second).is_some() && second.first_lack(&third).is_some());
        }
        assert!((125..500).contains(&less), "{less}");
    }

    #[test]
    fn pairs_cover_each_other_often_and_often_do_not() {
        let random = &mut SplitMix64::new(4);
        let mut covered = 0;
        for _ in 0..1000 {
            let (first, second) = pair(random);
            covered += usize::from(first.covers(&second, &FIRST_ITEM, &LAST_ITEM));
        }
        assert!((200..800).contains(&covered), "{covered}");
    }
}
