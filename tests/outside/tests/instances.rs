//! The instances that the paper names, on the engine and on the reference.

use inputs::{FIRST_ITEM, ItemId, LAST_ITEM, LONGEST, item_id, replica_id};
use inputs::{Knowledge, instances};
use outside::engine;

#[test]
fn the_named_instances_get_the_named_answers() {
    for instance in instances() {
        let mut sizes = [u64::MAX; 4];
        let number = engine::check(&instance.bytes, &mut sizes);
        let engine = if number == 0 { Ok(sizes) } else { Err(number) };
        assert_eq!(engine, instance.answer, "engine: {}", instance.name);
        if number != 0 {
            assert_eq!(sizes, [u64::MAX; 4], "engine, sizes: {}", instance.name);
        }

        let reference = reference::check(&instance.bytes).map(|sizes| [sizes.r, sizes.v, sizes.e, sizes.g]);
        assert_eq!(reference, instance.answer, "reference: {}", instance.name);
    }
}

#[test]
fn the_named_lengths() {
    assert_eq!(Knowledge::smallest().bytes().len(), 113);
    assert_eq!(Knowledge::largest().bytes().len(), 14_933);
}

#[test]
fn k5_a_contains_p_5_and_neither_p_6_nor_p_0() {
    let a = Knowledge::a().bytes();
    for item in [FIRST_ITEM, item_id(1), LAST_ITEM] {
        for (tick, answer) in [(5, 1), (6, 0), (0, 0)] {
            let mut contained = 7;
            assert_eq!(engine::contain(&a, &item, &replica_id(1), tick, &mut contained), 0, "P {tick}");
            assert_eq!(contained, answer, "P {tick}");
            assert_eq!(reference::contain(&a, &item, &replica_id(1), tick), Ok(answer == 1), "P {tick}");
        }
    }
}

#[test]
fn k8_the_lead_of_a_over_b_is_2_for_p_and_minus_2_for_q() {
    let (a, b) = (Knowledge::a().bytes(), Knowledge::b().bytes());
    for item in [FIRST_ITEM, item_id(1), LAST_ITEM] {
        for (replica, answer) in [(1, 2), (2, -2)] {
            let mut lead = 7;
            assert_eq!(engine::lead(&a, &b, &item, &replica_id(replica), &mut lead), 0);
            assert_eq!(lead, answer);
            assert_eq!(reference::lead(&a, &b, &item, &replica_id(replica)), Ok(answer));
        }
    }
}

/// What a place of A and another is written as: the item, the replica, and both ticks.
fn place(item: u128, replica: u128, ticks: [u64; 2]) -> Vec<u8> {
    [&item_id(item)[..], &replica_id(replica), &ticks.map(u64::to_be_bytes).concat()].concat()
}

#[test]
fn a_compared_with_b_with_nothing_with_a_part_and_with_itself() {
    let (a, b) = (Knowledge::a(), Knowledge::b());
    let none = Knowledge::smallest();
    let k6 = five_of_p(&[(FIRST_ITEM, 0), (item_id(1), 1), (item_id(2), 0)]);
    let instances = [
        (&a, &b, 3, vec![place(0, 2, [0, 2]), place(0, 1, [5, 3])]),
        (&b, &a, 3, vec![place(0, 1, [3, 5]), place(0, 2, [2, 0])]),
        (&none, &a, 1, vec![place(0, 1, [0, 5])]),
        (&a, &none, 2, vec![place(0, 1, [5, 0])]),
        (&k6, &a, 1, vec![place(0, 1, [0, 5])]),
        (&a, &a, 0, vec![]),
    ];
    for (first, second, order, places) in instances {
        let right = places.concat();
        let (first, second) = (&first.bytes(), &second.bytes());
        let (mut out, mut given, mut written) = ([0xa5; 120], 7, u64::MAX);
        assert_eq!(engine::compare(first, second, &mut given, &mut out, &mut written), 0);
        assert_eq!((given, written), (order, 56 * places.len() as u64));
        assert_eq!(out[..right.len()], right);
        assert!(out[right.len()..].iter().all(|byte| *byte == 0xa5));
        let mut out = [0xa5; 120];
        assert_eq!(reference::compare(first, second, &mut out), Ok((order, right.len())));
        assert_eq!(out[..right.len()], right);
    }
}

/// Both write the same bytes, these and no others, or give the same number and write nothing.
fn both_write(
    name: &str,
    answer: Result<&Knowledge, u32>,
    engine: impl FnOnce(&mut [u8], &mut u64) -> u32,
    reference: impl FnOnce(&mut [u8]) -> Result<usize, u32>,
) {
    const BEFORE: [u8; LONGEST + 9] = [0xa5; LONGEST + 9];
    let mut right = BEFORE;
    let bytes = answer.map(|knowledge| knowledge.bytes()).unwrap_or_default();
    right[..bytes.len()].copy_from_slice(&bytes);

    let (mut out, mut written) = (BEFORE, u64::MAX);
    let number = engine(&mut out, &mut written);
    assert_eq!(number, answer.err().unwrap_or(0), "engine: {name}");
    assert_eq!(written, answer.map_or(u64::MAX, |_| bytes.len() as u64), "engine: {name}");
    assert_eq!(out, right, "engine: {name}");

    let mut out = BEFORE;
    assert_eq!(reference(&mut out), answer.map(|_| bytes.len()), "reference: {name}");
    assert_eq!(out, right, "reference: {name}");
}

fn both_normalise(name: &str, knowledge: &Knowledge, answer: Result<&Knowledge, u32>) {
    let bytes = &knowledge.bytes();
    both_write(
        name,
        answer,
        |out, written| engine::normalise(bytes, out, written),
        |out| reference::normalise(bytes, out),
    );
}

/// Tick 5 of P, which has id 1, in some ranges.
fn five_of_p(ranges: &[(ItemId, u32)]) -> Knowledge {
    Knowledge { ranges: ranges.to_vec(), ..Knowledge::a() }
}

#[test]
fn k4_a_and_b_merged_know_p_5_and_q_2() {
    let merged = Knowledge { vectors: vec![Vec::new(), vec![(0, 5), (1, 2)]], ..Knowledge::b() };
    assert_eq!(merged.bytes().len(), 177);
    let (a, b) = (&Knowledge::a().bytes(), &Knowledge::b().bytes());
    for (first, second) in [(a, b), (b, a)] {
        both_write(
            "K4",
            Ok(&merged),
            |out, written| engine::merge(first, second, out, written),
            |out| reference::merge(first, second, out),
        );
    }
}

#[test]
fn k6_and_k7_parts_of_a() {
    let a = &Knowledge::a().bytes();
    let k6 = five_of_p(&[(FIRST_ITEM, 0), (item_id(1), 1), (item_id(2), 0)]);
    let k7 = five_of_p(&[(FIRST_ITEM, 0), (item_id(1), 1)]);
    for (name, length, part, last) in [("K6", 205, k6, item_id(1)), ("K7", 177, k7, LAST_ITEM)] {
        assert_eq!(part.bytes().len(), length, "{name}");
        both_write(
            name,
            Ok(&part),
            |out, written| engine::project(a, &item_id(1), &last, out, written),
            |out| reference::project(a, &item_id(1), &last, out),
        );
    }
}

#[test]
fn the_smallest_and_the_largest_are_their_own_normal_form() {
    for knowledge in [Knowledge::smallest(), Knowledge::a(), Knowledge::b(), Knowledge::largest()] {
        both_normalise("a normal form", &knowledge, Ok(&knowledge));
        both_normalise("backwards", &inputs::backwards(&knowledge), Ok(&knowledge));
    }
}

#[test]
fn sixty_four_unlike_ranges_from_1_on_have_65_in_normal_form() {
    both_normalise("64 unlike ranges starting at 1", &Knowledge::late_start(), Err(12));
    let mut fewer = Knowledge::late_start();
    fewer.ranges.pop();
    let mut normal = fewer.clone();
    normal.ranges.insert(0, (FIRST_ITEM, 0));
    normal.vectors.pop();
    both_normalise("63 of them", &fewer, Ok(&normal));
}
