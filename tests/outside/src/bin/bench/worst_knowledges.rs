//! The worst inputs of the calls on knowledges.

use inputs::{
    ALL, Knowledge, LARGEST_COMPARISON, LAST_ITEM, LONGEST, alike_but_for, backwards, hashes_alike,
    ids_alike_at_both_ends, item_id, merged_words_alike, replica_id, shuffled, vectors_backwards, words_alike,
};

use crate::row::{Asked, Row};
use crate::worst::{Case, Line, Size};

pub fn lines() -> Vec<Line> {
    vec![
        on_one("check", "accepted", |knowledge| Asked::Check { knowledge: knowledge.bytes() }),
        on_one("contain", "last range, last replica", contain),
        on_two("lead", "last range, last replica", lead),
        on_two("cover", "yes, all ids, the same bytes", |first, second| {
            let ([first, second], [first_item, last_item]) =
                ([first, second].map(Knowledge::bytes), ALL.map(Vec::from));
            Asked::Cover { first, second, first_item, last_item }
        }),
        on_two("compare", "alike, the same bytes", |first, second| {
            let [first, second] = [first, second].map(Knowledge::bytes);
            Asked::Compare { first, second, room: LARGEST_COMPARISON }
        }),
        on_one("normalise", "in normal form", |knowledge| Asked::Normalise {
            knowledge: knowledge.bytes(),
            room: LONGEST,
        }),
        on_two("merge", "the same bytes", merge),
        Line::of_the_largest("merge", "replicas too many", replicas_too_many),
        Line::of_the_largest("merge", "ranges too many", ranges_too_many),
        on_one("project", "all ids", |knowledge| {
            let [first_item, last_item] = ALL.map(Vec::from);
            Asked::Project { knowledge: knowledge.bytes(), first_item, last_item, room: LONGEST }
        }),
    ]
}

fn contain(knowledge: &Knowledge) -> Asked {
    let replica = knowledge.replicas[knowledge.replicas.len() - 1];
    Asked::Contain {
        knowledge: knowledge.bytes(),
        item: LAST_ITEM.to_vec(),
        replica: replica.to_vec(),
        tick: knowledge.known(&LAST_ITEM, &replica),
    }
}

fn lead(first: &Knowledge, second: &Knowledge) -> Asked {
    let replica = first.replicas[first.replicas.len() - 1].to_vec();
    Asked::Lead { first: first.bytes(), second: second.bytes(), item: LAST_ITEM.to_vec(), replica }
}

fn merge(first: &Knowledge, second: &Knowledge) -> Asked {
    Asked::Merge { first: first.bytes(), second: second.bytes(), room: LONGEST }
}

fn typical(size: Size) -> Knowledge {
    Knowledge::filled(size.replicas, size.ranges + 1, size.ranges)
}

/// A call on one knowledge.
fn on_one(call: &'static str, input: &'static str, ask: impl Fn(&Knowledge) -> Asked) -> Line {
    Line::new(call, input, |size| {
        let row = |(name, knowledge): (_, Knowledge)| {
            assert!(reference::check(&knowledge.bytes()).is_ok(), "{name}");
            Row::new(name, 0, ask(&knowledge))
        };
        Case::new(row((input, typical(size))), each(size).into_iter().map(row).collect())
    })
}

fn each(size: Size) -> Vec<(&'static str, Knowledge)> {
    let typical = &typical(size);
    let last = size.replicas as u32 - 1;
    vec![
        ("vectors backwards", vectors_backwards(typical)),
        ("everything backwards", backwards(typical)),
        ("everything shuffled", shuffled(typical)),
        ("alike but for the first column, backwards", backwards(&alike_but_for(typical, 0))),
        ("alike but for the last column, backwards", backwards(&alike_but_for(typical, last))),
        ("ids alike at both ends", ids_alike_at_both_ends(typical)),
        ("hashes of Rust alike", hashes_alike(typical)),
        ("words alike, unlike in the first columns", words_alike(typical, 0)),
        ("words alike, unlike in the last columns", words_alike(typical, last - 1)),
        ("words alike, unlike in the first columns, backwards", words_alike(&backwards(typical), 0)),
        ("words alike, unlike in the last columns, backwards", words_alike(&backwards(typical), last - 1)),
    ]
}

/// A call on two knowledges.
fn on_two(call: &'static str, input: &'static str, ask: impl Fn(&Knowledge, &Knowledge) -> Asked) -> Line {
    Line::new(call, input, |size| {
        let row = |(name, [first, second]): (_, [Knowledge; 2])| {
            assert!([&first, &second].iter().all(|one| reference::check(&one.bytes()).is_ok()), "{name}");
            Row::new(name, 0, ask(&first, &second))
        };
        Case::new(row((input, twice(typical(size)))), pairs(size).into_iter().map(row).collect())
    })
}

fn twice(knowledge: Knowledge) -> [Knowledge; 2] {
    [knowledge.clone(), knowledge]
}

fn pairs(size: Size) -> Vec<(&'static str, [Knowledge; 2])> {
    let typical = typical(size);
    let last = size.replicas as u32 - 1;
    let second_backwards = |first: Knowledge| [first.clone(), backwards(&first)];
    vec![
        ("a tick more in the second's last range", [typical.clone(), with_more(&typical)]),
        ("the second's vectors backwards", [typical.clone(), vectors_backwards(&typical)]),
        ("the second backwards", second_backwards(typical.clone())),
        ("both backwards", twice(backwards(&typical))),
        ("the second shuffled", [typical.clone(), shuffled(&typical)]),
        ("both shuffled", twice(shuffled(&typical))),
        ("alike but for the first column, the second backwards", second_backwards(alike_but_for(&typical, 0))),
        ("alike but for the last column, the second backwards", second_backwards(alike_but_for(&typical, last))),
        ("ids alike at both ends, the second backwards", second_backwards(ids_alike_at_both_ends(&typical))),
        ("hashes of Rust alike", twice(hashes_alike(&typical))),
        ("words alike, unlike in the first columns", twice(words_alike(&typical, 0))),
        ("words alike, unlike in the last columns", twice(words_alike(&typical, last - 1))),
        ("words alike, unlike in the first columns, the second backwards", second_backwards(words_alike(&typical, 0))),
        ("words alike, unlike in the first columns, both backwards", twice(words_alike(&backwards(&typical), 0))),
    ]
}

/// The same with one tick more of the last replica in the last range.
fn with_more(knowledge: &Knowledge) -> Knowledge {
    let mut more = knowledge.clone();
    if let Some((_, tick)) = more.vectors.last_mut().and_then(|vector| vector.last_mut()) {
        *tick += 1;
    }
    more
}

/// The merge of two knowledges with no bound in common.
fn merge_apart(first: &Knowledge, second: &Knowledge) -> Asked {
    let moved = |knowledge: &Knowledge, more: u128| {
        let mut moved = knowledge.clone();
        moved.ranges.iter_mut().zip(0..).for_each(|((bound, _), number)| *bound = item_id(2 * number + more));
        moved
    };
    merge(&moved(first, 0), &moved(second, 1))
}

/// Merges of knowledges that have no replica in common, or two. If no bound is in common, there are twice as many rows.
fn replicas_too_many(size: Size) -> Case {
    let typical = &typical(size);
    let others = |knowledge: &Knowledge, common: usize| {
        let mut others = knowledge.clone();
        others.replicas.iter_mut().zip(100..).skip(common).for_each(|(id, number)| *id = replica_id(number));
        others
    };
    let alike = &words_alike(typical, 0);
    let [first, second] = &merged_words_alike(typical, 0);
    let row = |name, asked| Row::new(name, 11, asked);
    Case::new(
        row("replicas too many", merge(typical, &others(typical, 0))),
        vec![
            row("no bound in common", merge_apart(typical, &others(typical, 0))),
            row("words alike", merge(alike, &others(alike, 0))),
            row("words alike, no bound in common", merge_apart(alike, &others(alike, 0))),
            row("words alike, no bound and two replicas in common", merge_apart(first, &others(second, 2))),
        ],
    )
}

/// Merges of knowledges that have no bound in common.
fn ranges_too_many(size: Size) -> Case {
    let typical = &typical(size);
    let last = size.replicas as u32 - 1;
    let mut raised = typical.clone();
    raised.vectors.iter_mut().flatten().filter(|(key, _)| key % 2 == 0).for_each(|(_, tick)| *tick += 5000);
    let alike = |name, first_key| {
        let [first, second] = merged_words_alike(typical, first_key);
        Row::new(name, 12, merge_apart(&first, &second))
    };
    Case::new(
        Row::new("ranges too many", 12, merge_apart(typical, &raised)),
        vec![
            alike("words alike, unlike in the first columns", 0),
            alike("words alike, unlike in the last columns", last - 1),
        ],
    )
}
