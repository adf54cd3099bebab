//! The comparison passes a right engine and notices wrong ones.

use inputs::{ItemId, Knowledge, Store};

use super::*;
use crate::lenient;
use crate::stand_in::Reference;
use crate::wrong::{APPLIES, CHANGES, MAKES, Wrong};

/// Twice as many as there are fixed ones, so that all of these are in the run.
const PLAN: Plan = Plan { inputs: 140_000, ..Plan::USUAL };

fn is_noticed(name: &str, wrong: &Wrong) {
    let error = run(&PLAN, wrong).expect_err(name);
    assert!(error.contains("in place: engine "), "{name}: {error}");
}

#[test]
fn a_right_engine_passes() {
    let tally = run(&PLAN, &Reference).unwrap();
    assert_eq!(tally.calls(), PLAN.inputs as u64);
    run(&Plan { inputs: 20_000, ..PLAN }, &Wrong::default()).unwrap();
}

#[test]
fn an_engine_that_changes_in_another_way_is_noticed() {
    for (name, change) in CHANGES {
        is_noticed(name, &Wrong { change: Some(change), ..Wrong::default() });
    }
}

#[test]
fn an_engine_that_makes_in_another_way_is_noticed() {
    for (name, make) in MAKES {
        is_noticed(name, &Wrong { make: Some(make), ..Wrong::default() });
    }
}

#[test]
fn an_engine_that_applies_in_another_way_is_noticed() {
    for (name, apply) in APPLIES {
        is_noticed(name, &Wrong { apply: Some(apply), ..Wrong::default() });
    }
}

#[test]
fn an_engine_that_leaves_a_rule_of_validity_out_is_noticed() {
    for rule in lenient::STORE_RULES {
        is_noticed(rule, &Wrong { store_rule: Some(rule), ..Wrong::default() });
    }
    for rule in lenient::BATCH_RULES {
        is_noticed(rule, &Wrong { batch_rule: Some(rule), ..Wrong::default() });
    }
}

/// The number that a wrong engine gives, by the call, its arguments, the length of the buffer and the right number.
type Number = fn(&str, &[&[u8]], usize, u32) -> u32;

/// What the store has too much of before a change: the tick, replicas, records.
fn over(store: &[u8], item: &[u8]) -> Option<[bool; 3]> {
    let store = Store::opened(store)?;
    let item = ItemId::try_from(item).ok()?;
    let tick = store.knowledge.largest_tick() == i64::MAX as u64;
    let replicas = store.knowledge.replicas.len() == 16 && !store.knowledge.replicas.contains(&store.own);
    Some([tick, replicas, store.records.len() == 256 && store.record(&item).is_none()])
}

/// What a store and a batch have too much of together: replicas, ranges, records.
fn over_together(store: &[u8], batch: &[u8]) -> Option<[bool; 3]> {
    let (store, batch) = (Store::opened(store)?, Batch::opened(batch)?);
    let merged = store.knowledge.merged(&batch.learned);
    let more = batch.records.iter().filter(|record| store.record(&record.item).is_none()).count();
    Some([merged.replicas.len() > 16, merged.ranges.len() > 64, store.records.len() + more > 256])
}

#[test]
fn an_engine_that_gives_a_wrong_number_is_noticed() {
    let wrong: [(&str, Number); 16] = [
        ("14 before all others", |_, _, room, number| if room == 0 { 14 } else { number }),
        ("14 before 13", |_, _, room, number| if number == 13 && room == 0 { 14 } else { number }),
        ("14 before 12", |_, _, room, number| if number == 12 && room == 0 { 14 } else { number }),
        ("14 before 18", |_, _, room, number| if number == 18 && room == 0 { 14 } else { number }),
        ("14 before 19", |_, _, room, number| if number == 19 && room == 0 { 14 } else { number }),
        ("14 before 20", |_, _, room, number| if number == 20 && room == 0 { 14 } else { number }),
        ("17 before 15", |call, arguments, _, number| {
            let short = match call {
                "edit" => arguments[1].len() != 24 || arguments[2].len() != 16,
                "delete" => arguments[1].len() != 24,
                _ => false,
            };
            if number == 15 && short { 17 } else { number }
        }),
        ("17 before a knowledge's number", |call, arguments, _, number| {
            let short = call == "make" && arguments[2..].iter().any(|id| id.len() != 24);
            if (1..=10).contains(&number) && short { 17 } else { number }
        }),
        ("the knowledge before the store", |call, arguments, _, number| match call {
            "make" if number == 15 => reference::check(arguments[1]).err().unwrap_or(15),
            _ => number,
        }),
        ("the batch before the store", |call, arguments, _, number| match call {
            "apply" if number == 15 => reference::learned(arguments[1]).err().unwrap_or(15),
            _ => number,
        }),
        ("20 before 19", |call, arguments, _, number| match call {
            "delete" if number == 19 && over(arguments[0], arguments[1]).is_some_and(|[tick, ..]| tick) => 20,
            _ => number,
        }),
        ("11 before 20", |call, arguments, _, number| match call {
            "edit" if number == 20 && over(arguments[0], arguments[1]).is_some_and(|[_, replicas, _]| replicas) => 11,
            _ => number,
        }),
        ("13 before 20", |call, arguments, _, number| match call {
            "edit" if number == 20 && over(arguments[0], arguments[1]).is_some_and(|[.., records]| records) => 13,
            _ => number,
        }),
        ("13 before 11", |call, arguments, _, number| match call {
            "apply" if number == 11 && over_together(arguments[0], arguments[1]).is_some_and(|[.., over]| over) => 13,
            _ => number,
        }),
        ("12 before 11", |call, arguments, _, number| match call {
            "apply" if number == 11 && over_together(arguments[0], arguments[1]).is_some_and(|[_, over, _]| over) => 12,
            _ => number,
        }),
        ("13 before 12", |call, arguments, _, number| match call {
            "apply" if number == 12 && over_together(arguments[0], arguments[1]).is_some_and(|[.., over]| over) => 13,
            _ => number,
        }),
    ];
    for (name, number) in wrong {
        is_noticed(name, &Wrong { number: Some(number), ..Wrong::default() });
    }
    let others: [(&str, Number); 2] = [
        ("18 before 16", |call, arguments, _, number| {
            let empty = Knowledge::smallest();
            let needs = |batch: &[u8]| lenient::batch(batch).is_some_and(|(batch, _)| batch.needed != empty);
            if call == "apply" && number == 16 && needs(arguments[1]) { 18 } else { number }
        }),
        ("12 before 18", |call, arguments, _, number| match call {
            "apply" if number == 18 && over_together(arguments[0], arguments[1]).is_some_and(|[_, over, _]| over) => 12,
            _ => number,
        }),
    ];
    for (name, number) in others {
        is_noticed(name, &Wrong { number: Some(number), ..Wrong::default() });
    }
}

#[test]
fn an_engine_that_writes_too_much_is_noticed() {
    for number in [11, 12, 13, 14, 15, 16, 17, 18, 19, 20] {
        is_noticed("a byte on a refusal", &Wrong { byte_on: Some(number), ..Wrong::default() });
        is_noticed("the length on a refusal", &Wrong { length_on: Some(number), ..Wrong::default() });
    }
    is_noticed("the rest cleared", &Wrong { clears_the_rest: true, ..Wrong::default() });
    is_noticed("one byte less is enough", &Wrong { needs_less: 1, ..Wrong::default() });
}

#[test]
fn what_never_occurs_is_noticed() {
    let plan = Plan { inputs: 20, ..PLAN };
    assert!(run(&plan, &Reference).unwrap_err().contains("never occurred"));
}
