//! Normalise, merge and project against the slow and plain meaning of a knowledge.

use std::collections::BTreeMap;

use inputs::{ItemId, Knowledge, LAST_ITEM, LONGEST, Plan, Room, Writing, Writings, item_id};
use reference::{check, merge, normalise, project};

/// Has all fixed calls.
const PLAN: Plan = Plan { seed: 78, inputs: 70_000 };

/// How often each number was given by each call, 0 for acceptance.
type Counts = BTreeMap<&'static str, BTreeMap<u32, usize>>;

fn decoded(bytes: &[u8]) -> Result<Knowledge, u32> {
    check(bytes).map(|_| Knowledge::decoded(bytes))
}

/// The bytes of a result, or its number where it has too much of something.
fn result(knowledge: Knowledge) -> Result<Vec<u8>, u32> {
    assert!(knowledge.is_normal());
    if knowledge.replicas.len() > 16 {
        return Err(11);
    }
    if knowledge.ranges.len() > 64 {
        return Err(12);
    }
    Ok(knowledge.bytes())
}

fn span(first: &[u8], last: &[u8]) -> Result<(ItemId, ItemId), u32> {
    let [first, last] = [first, last].map(|id| ItemId::try_from(id).map_err(|_| 17u32));
    let (first, last) = (first?, last?);
    if first > last { Err(17) } else { Ok((first, last)) }
}

/// Calls with a buffer: the bytes come to the front where there is room, and else no byte changes. Gives the number.
fn compare(right: Result<Vec<u8>, u32>, room: Room, call: impl Fn(&mut [u8]) -> Result<usize, u32>) -> u32 {
    let room = room.length(right.as_ref().ok().map(Vec::len));
    let mut out = vec![0xa5; room];
    let answer = call(&mut out);
    let right = right.and_then(|bytes| if bytes.len() <= room { Ok(bytes) } else { Err(14) });
    assert_eq!(answer, right.as_ref().map(Vec::len).map_err(|number| *number));
    let bytes = right.as_deref().unwrap_or(&[]);
    assert!(out.starts_with(bytes));
    assert!(out[bytes.len()..].iter().all(|byte| *byte == 0xa5));
    right.err().unwrap_or(0)
}

#[test]
fn as_slowly() {
    let mut counts = Counts::new();
    let run = PLAN.try_for_each_call::<Writings>(|input| {
        let (call, number) = match input.call {
            Writing::Normalise { knowledge, room } => {
                let right = decoded(knowledge).and_then(|knowledge| result(knowledge.normalised()));
                ("normalise", compare(right, room, |out| normalise(knowledge, out)))
            }
            Writing::Merge { first, second, room } => {
                let right = decoded(first).and_then(|first| result(first.merged(&decoded(second)?)));
                ("merge", compare(right, room, |out| merge(first, second, out)))
            }
            Writing::Project { knowledge, first_item, last_item, room } => {
                let right = decoded(knowledge).and_then(|knowledge| {
                    let (first, last) = span(first_item, last_item)?;
                    result(knowledge.projected(&first, &last))
                });
                ("project", compare(right, room, |out| project(knowledge, first_item, last_item, out)))
            }
        };
        *counts.entry(call).or_default().entry(number).or_default() += 1;
        Ok(())
    });
    run.unwrap();
    for (call, others) in [("normalise", &[12, 14][..]), ("merge", &[11, 12, 14]), ("project", &[12, 14, 17])] {
        let numbers: Vec<u32> = (0..=10).chain(others.iter().copied()).collect();
        assert_eq!(counts[call].keys().copied().collect::<Vec<_>>(), numbers, "{call}: {counts:?}");
    }
}

#[test]
fn the_named_instances() {
    let written = |call: &dyn Fn(&mut [u8]) -> Result<usize, u32>| call(&mut [0; LONGEST]);
    let (a, b) = (Knowledge::a().bytes(), Knowledge::b().bytes());
    assert_eq!(written(&|out| merge(&a, &b, out)), Ok(177), "K4");
    assert_eq!(written(&|out| project(&a, &item_id(1), &item_id(1), out)), Ok(205), "K6");
    assert_eq!(written(&|out| project(&a, &item_id(1), &LAST_ITEM, out)), Ok(177), "K7");
    assert_eq!(written(&|out| normalise(&Knowledge::largest().bytes(), out)), Ok(14_933));
    assert_eq!(written(&|out| normalise(&Knowledge::late_start().bytes(), out)), Err(12));
}
