//! The quick code against the slow and plain meaning of a knowledge.

use inputs::{
    Call, Comparing, Comparings, FIRST_ITEM, ItemId, Knowledge, LARGEST_COMPARISON, LAST_ITEM, Lookups, Plan,
    ReplicaId, SplitMix64, item_id, replica_id,
};
use reference::{check, compare, contain, cover, lead};

const PLAN: Plan = Plan { seed: 77, inputs: 200_000 };

/// What the bytes of a knowledge say, or the number of their fault.
fn decoded(bytes: &[u8]) -> Result<Knowledge, u32> {
    check(bytes).map(|_| Knowledge::decoded(bytes))
}

fn id<const N: usize>(bytes: &[u8]) -> Result<[u8; N], u32> {
    bytes.try_into().map_err(|_| 17)
}

fn span(first: &[u8], last: &[u8]) -> Result<(ItemId, ItemId), u32> {
    let (first, last) = (id(first)?, id(last)?);
    if first > last { Err(17) } else { Ok((first, last)) }
}

fn slow_contain(knowledge: &[u8], item: &[u8], replica: &[u8], tick: u64) -> Result<bool, u32> {
    let knowledge = decoded(knowledge)?;
    Ok(knowledge.contains(&id(item)?, &id(replica)?, tick))
}

fn slow_lead(first: &[u8], second: &[u8], item: &[u8], replica: &[u8]) -> Result<i128, u32> {
    let (first, second) = (decoded(first)?, decoded(second)?);
    Ok(first.lead(&second, &id(item)?, &id(replica)?))
}

fn slow_cover(first: &[u8], second: &[u8], first_item: &[u8], last_item: &[u8]) -> Result<bool, u32> {
    let (first, second) = (decoded(first)?, decoded(second)?);
    let (first_item, last_item) = span(first_item, last_item)?;
    Ok(first.covers(&second, &first_item, &last_item))
}

/// The order and the places where each that lacks something does so first, where these are the places.
fn compared(first: &Knowledge, second: &Knowledge, lacks: [Option<(ItemId, ReplicaId)>; 2]) -> (u32, Vec<u8>) {
    let order = u32::from(lacks[0].is_some()) + 2 * u32::from(lacks[1].is_some());
    let place = |(item, id): (ItemId, ReplicaId)| {
        let ticks = [first, second].map(|knowledge| knowledge.known(&item, &id).to_be_bytes());
        [&item[..], &id, &ticks.concat()].concat()
    };
    (order, lacks.into_iter().flatten().flat_map(place).collect())
}

fn slow_compare(first: &[u8], second: &[u8]) -> Result<(u32, Vec<u8>), u32> {
    let (first, second) = (decoded(first)?, decoded(second)?);
    Ok(compared(&first, &second, [first.first_lack(&second), second.first_lack(&first)]))
}

/// Compares in a buffer of a length; no byte changes but those of the result.
fn quick_compare(first: &[u8], second: &[u8], room: usize) -> Result<(u32, Vec<u8>), u32> {
    let mut out = vec![0xa5; room];
    let answer = compare(first, second, &mut out);
    let rest = out.split_off(answer.map_or(0, |(_, length)| length));
    assert!(rest.iter().all(|byte| *byte == 0xa5), "a byte that is not of the result");
    answer.map(|(order, _)| (order, out))
}

#[test]
fn compares_as_slowly() {
    let plan = Plan { seed: 79, inputs: 20_000 };
    let (mut orders, mut refused) = ([0; 4], [0; 15]);
    plan.try_for_each_call::<Comparings>(|input| {
        let Comparing { first, second, room } = input.call;
        let right = slow_compare(first, second);
        let room = room.length(right.as_ref().ok().map(|(_, bytes)| bytes.len()));
        let right = right.and_then(|answer| if answer.1.len() <= room { Ok(answer) } else { Err(14) });
        match right {
            Ok((order, _)) => orders[order as usize] += 1,
            Err(number) => refused[number as usize] += 1,
        }
        if quick_compare(first, second, room) == right { Ok(()) } else { Err(format!("{input:?}")) }
    })
    .unwrap();
    assert!(orders.iter().all(|count| *count > 200), "{orders:?}");
    assert!(refused[1..=10].iter().chain([&refused[14]]).all(|count| *count > 10), "{refused:?}");
}

#[test]
fn calls_as_slowly() {
    PLAN.try_for_each_call::<Lookups>(|input| {
        let right = match input.call {
            Call::Contain { knowledge, item, replica, tick } => {
                contain(knowledge, item, replica, tick) == slow_contain(knowledge, item, replica, tick)
            }
            Call::Lead { first, second, item, replica } => {
                lead(first, second, item, replica).map(i128::from) == slow_lead(first, second, item, replica)
            }
            Call::Cover { first, second, first_item, last_item } => {
                cover(first, second, first_item, last_item) == slow_cover(first, second, first_item, last_item)
            }
        };
        if right { Ok(()) } else { Err(format!("{input:?}")) }
    })
    .unwrap();
}

#[test]
fn the_faulty_knowledges_have_the_faults_that_they_are_named_for() {
    for knowledge in [Knowledge::filled(1, 2, 1), Knowledge::filled(2, 3, 3), Knowledge::largest()] {
        for (number, bytes) in (1..).zip(inputs::faulty(&knowledge)) {
            assert_eq!(check(&bytes), Err(number));
        }
    }
}

/// A random knowledge whose bounds are below 12, and its replica ids below 4.
fn small(random: &mut SplitMix64) -> Knowledge {
    let mut replicas: Vec<_> = (0..4).map(replica_id).collect();
    random.shuffle(&mut replicas);
    replicas.truncate(random.between(0, 4));
    let mut bounds: Vec<u128> = (0..12).collect();
    random.shuffle(&mut bounds);
    bounds.truncate(random.between(1, 6));
    bounds.sort();
    let mut vectors = vec![Vec::new()];
    for _ in 0..random.between(0, 4) {
        let keys = (0..replicas.len() as u32).filter(|_| !random.once_in(4)).collect::<Vec<_>>();
        vectors.push(keys.into_iter().map(|key| (key, random.below(3) as u64)).collect());
    }
    let ranges = bounds.into_iter().map(|bound| (item_id(bound), random.below(vectors.len()) as u32)).collect();
    Knowledge { replicas, vectors, ranges }
}

#[test]
fn cover_looks_at_every_item_of_the_span() {
    let random = &mut SplitMix64::new(8);
    let mut counts = [0; 2];
    for _ in 0..2000 {
        let (first, second) = (small(random), small(random));
        for from in 0..14 {
            for to in from..14 {
                let every_item = (from..=to).all(|item| {
                    let item = item_id(item);
                    (0..4).map(replica_id).all(|id| first.known(&item, &id) >= second.known(&item, &id))
                });
                let answer = cover(&first.bytes(), &second.bytes(), &item_id(from), &item_id(to));
                assert_eq!(answer, Ok(every_item), "{first:?} {second:?} {from} {to}");
                counts[usize::from(every_item)] += 1;
            }
        }
    }
    assert!(counts[0] > 10_000 && counts[1] > 10_000, "{counts:?}");
}

#[test]
fn compare_finds_the_first_of_all_items_and_replicas() {
    let random = &mut SplitMix64::new(9);
    let mut counts = [0; 4];
    for _ in 0..20_000 {
        let (first, second) = (small(random), small(random));
        let lack = |one: &Knowledge, other: &Knowledge| {
            let mut places = (0..14).map(item_id).flat_map(|item| (0..4).map(move |id| (item, replica_id(id))));
            places.find(|(item, id)| one.known(item, id) < other.known(item, id))
        };
        let right = compared(&first, &second, [lack(&first, &second), lack(&second, &first)]);
        let found = quick_compare(&first.bytes(), &second.bytes(), LARGEST_COMPARISON);
        assert_eq!(found.as_ref(), Ok(&right), "{first:?} {second:?}");
        counts[right.0 as usize] += 1;
    }
    assert!(counts.iter().all(|count| *count > 200), "{counts:?}");
}

#[test]
fn k5_a_contains_p_5_and_neither_p_6_nor_p_0() {
    let a = Knowledge::a().bytes();
    for item in [item_id(0), item_id(1), LAST_ITEM] {
        for (tick, contained) in [(5, true), (1, true), (6, false), (0, false), (u64::MAX, false)] {
            assert_eq!(contain(&a, &item, &replica_id(1), tick), Ok(contained), "P {tick}");
        }
        assert_eq!(contain(&a, &item, &replica_id(2), 1), Ok(false));
    }
}

#[test]
fn k8_the_lead_of_a_over_b() {
    let (a, b) = (Knowledge::a().bytes(), Knowledge::b().bytes());
    let item = item_id(1);
    assert_eq!(lead(&a, &b, &item, &replica_id(1)), Ok(2));
    assert_eq!(lead(&a, &b, &item, &replica_id(2)), Ok(-2));
    assert_eq!(lead(&b, &a, &item, &replica_id(2)), Ok(2));
    assert_eq!(cover(&a, &b, &FIRST_ITEM, &LAST_ITEM), Ok(false));
}
