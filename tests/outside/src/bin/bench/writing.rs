//! The rows of the tables of calls that write.
//!
//! A knowledge that is hard to normalise has its replicas, elements and vectors in the opposite order, so that no index stays as it is,
//! and rows that differ in the last column only, so that comparing two of them takes longest.

use inputs::{
    FIRST_ITEM, ItemId, Knowledge, LAST_ITEM, LONGEST, alike_but_for_the_last, backwards, item_id, replica_id,
};

use crate::row::{Asked, Row};
use crate::sample::Sample;

/// One byte less than the result of a call has.
fn one_less(call: impl FnOnce(&mut [u8]) -> Result<usize, u32>) -> usize {
    call(&mut [0; LONGEST]).expect("it fits") - 1
}

/// The same with the bounds moved up, so that it has one range more in normal form.
fn late(knowledge: &Knowledge) -> Knowledge {
    moved(knowledge, |place| 2 * place + 1)
}

fn moved(knowledge: &Knowledge, bound: fn(u128) -> u128) -> Knowledge {
    let mut moved = knowledge.clone();
    moved.ranges.iter_mut().zip(0..).for_each(|((place, _), k)| *place = item_id(bound(k)));
    moved
}

/// The same with later ticks of every other replica, so that the larger of the two changes at the bounds of both.
fn raised(mut knowledge: Knowledge) -> Knowledge {
    for (key, tick) in knowledge.vectors.iter_mut().flatten() {
        *tick += u64::from(*key % 2 == 0) * 5000;
    }
    knowledge
}

/// The first half of the ranges.
fn half(knowledge: &Knowledge) -> Knowledge {
    let mut half = knowledge.clone();
    half.ranges.truncate(knowledge.ranges.len().div_ceil(2));
    half
}

/// The rows that differ from what another row measures; the smallest knowledge is its own opposite.
fn distinct(rows: Vec<(&'static str, u32, Asked)>) -> Vec<Row> {
    let mut seen = Vec::new();
    let mut distinct = Vec::new();
    for (name, number, asked) in rows {
        if !seen.contains(&asked) {
            seen.push(asked.clone());
            distinct.push(Row::new(name, number, asked));
        }
    }
    distinct
}

pub fn normalise(sample: &Sample) -> Vec<Row> {
    let knowledge = &sample.knowledge;
    let row =
        |name, number, bytes: &[u8]| (name, number, Asked::Normalise { knowledge: bytes.to_vec(), room: LONGEST });
    let mut alike = knowledge.clone();
    alike.ranges.iter_mut().for_each(|(_, index)| *index = (*index).min(1));
    let last_only = alike_but_for_the_last(knowledge);
    let short = Asked::Normalise {
        knowledge: sample.whole.clone(),
        room: one_less(|out| reference::normalise(&sample.whole, out)),
    };
    let mut rows = vec![
        row("in normal form", 0, &sample.whole),
        row("everything backwards", 0, &backwards(knowledge).bytes()),
        row("alike but for the last column", 0, &last_only.bytes()),
        row("alike but for the last column, backwards", 0, &backwards(&last_only).bytes()),
        row("joined to one range", 0, &alike.bytes()),
        row("last index too high", 9, &sample.index_too_high),
        row("one replica too many", 3, &sample.replica_too_many),
        row("cut by one byte", 1, &sample.cut),
        ("buffer one byte too short", 14, short),
    ];
    if knowledge.ranges.len() == 64 {
        rows.push(row("one range too many", 12, &late(knowledge).bytes()));
    }
    distinct(rows)
}

pub fn merge(sample: &Sample) -> Vec<Row> {
    let (knowledge, whole) = (&sample.knowledge, &sample.whole[..]);
    let row = |name, number, first: &[u8], second: &[u8]| {
        (name, number, Asked::Merge { first: first.to_vec(), second: second.to_vec(), room: LONGEST })
    };
    let backward = &backwards(knowledge).bytes();
    let last_only = alike_but_for_the_last(knowledge);
    let even = moved(&half(knowledge), |place| 2 * place);
    let odd = backwards(&raised(late(&half(knowledge))));
    let mut others = knowledge.clone();
    others.replicas = (100..).take(knowledge.replicas.len()).map(replica_id).collect();
    let short = Asked::Merge {
        first: whole.to_vec(),
        second: whole.to_vec(),
        room: one_less(|out| reference::merge(whole, whole, out)),
    };
    let mut rows = vec![
        row("the same bytes", 0, whole, whole),
        row("the second backwards", 0, whole, backward),
        row(
            "alike but for the last column, the second backwards",
            0,
            &last_only.bytes(),
            &backwards(&last_only).bytes(),
        ),
        row("half of the ranges each, no bound in common", 0, &even.bytes(), &odd.bytes()),
        row("the second empty", 0, whole, &Knowledge::smallest().bytes()),
        row("first: last index too high", 9, &sample.index_too_high, whole),
        row("second: last index too high", 9, whole, &sample.index_too_high),
        row("first: one replica too many", 3, &sample.replica_too_many, whole),
        row("second: cut by one byte", 1, whole, &sample.cut),
        ("buffer one byte too short", 14, short),
    ];
    if knowledge.replicas.len() > 8 {
        rows.push(row("replicas too many", 11, whole, &others.bytes()));
    }
    if knowledge.ranges.len() > 32 {
        rows.push(row(
            "ranges too many",
            12,
            &moved(knowledge, |place| 2 * place).bytes(),
            &raised(late(knowledge)).bytes(),
        ));
    }
    distinct(rows)
}

pub fn project(sample: &Sample) -> Vec<Row> {
    let (knowledge, whole) = (&sample.knowledge, &sample.whole[..]);
    let row = |name, number, bytes: &[u8], first: &ItemId, last: &ItemId| {
        let (first_item, last_item) = (first.to_vec(), last.to_vec());
        (name, number, Asked::Project { knowledge: bytes.to_vec(), first_item, last_item, room: LONGEST })
    };
    let hard = &backwards(&alike_but_for_the_last(knowledge)).bytes();
    let g = knowledge.ranges.len() as u128;
    let [quarter, middle, three_quarters] = [g / 4, g / 2, 3 * g / 4].map(item_id);
    let short = Asked::Project {
        knowledge: whole.to_vec(),
        first_item: quarter.to_vec(),
        last_item: three_quarters.to_vec(),
        room: one_less(|out| reference::project(whole, &quarter, &three_quarters, out)),
    };
    let mut rows = vec![
        row("all ids", 0, whole, &FIRST_ITEM, &LAST_ITEM),
        row("all ids, alike but for the last column, backwards", 0, hard, &FIRST_ITEM, &LAST_ITEM),
        row("half of the ranges", 0, whole, &quarter, &three_quarters),
        row("one id", 0, whole, &middle, &middle),
        row("last index too high", 9, &sample.index_too_high, &FIRST_ITEM, &LAST_ITEM),
        row("one replica too many", 3, &sample.replica_too_many, &FIRST_ITEM, &LAST_ITEM),
        row("cut by one byte", 1, &sample.cut, &FIRST_ITEM, &LAST_ITEM),
        row("first id above last", 17, whole, &LAST_ITEM, &FIRST_ITEM),
        ("buffer one byte too short", 14, short),
    ];
    if g == 64 {
        rows.push(row("one range too many", 12, whole, &FIRST_ITEM, &item_id(g)));
    }
    distinct(rows)
}
