//! A right engine passes, wrong ones are noticed, and a failing list is printed so that it can be pasted here.

use inputs::{Room, Store};

use super::generate::Limit;
use super::list::{Call, Given};
use super::*;
use crate::stand_in::Reference;
use crate::wrong::{APPLIES, Apply, CHANGES, Change, FIGURES, MAKES, Wrong, changed};

const PLAN: Plan = Plan { lists: 400, ..Plan::USUAL };

#[test]
fn a_right_engine_passes() {
    let lists = run(&PLAN, &Reference, &Reference).unwrap();
    assert_eq!(lists.lists, 400);
}

const P: &str = "00000000000000000000000000000001";
const Q: &str = "00000000000000000000000000000002";
const ITEM: &str = "000000000000000000000000000000000000000000000001";
const SECOND: &str = "000000000000000000000000000000000000000000000002";
const TOP: &str = "ffffffffffffffffffffffffffffffffffffffffffffffff";
const FIRST: &str = "000000000000000000000000000000000000000000000000";
const TAG: &str = "09090909090909090909090909090909";

/// The paper's K12, and its text as it is printed.
fn k12() -> (List, String) {
    let list = List::new(&[(P, 0), (Q, 7)])
        .edit(0, ITEM, TAG, Room::More(0))
        .make(0, 0, Given::Nothing, FIRST, TOP, Room::More(3))
        .edit(0, SECOND, TAG, Room::More(0))
        .make(0, 1, Given::Learned(0), FIRST, TOP, Room::More(0))
        .apply(1, 1, Room::More(0))
        .apply(1, 0, Room::Less(1))
        .apply(1, 0, Room::More(0))
        .apply(1, 1, Room::More(0))
        .delete(1, ITEM, Room::Bytes(5000))
        .make(1, 2, Given::Of(0, 1), ITEM, ITEM, Room::More(0))
        .make(1, 3, Given::bytes("00ff"), ITEM, ITEM, Room::More(0));
    let text = format!(
        r#"List::new(&[("{P}", 0), ("{Q}", 7)])
    .edit(0, "{ITEM}", "{TAG}", Room::More(0))
    .make(0, 0, Given::Nothing, "{FIRST}", "{TOP}", Room::More(3))
    .edit(0, "{SECOND}", "{TAG}", Room::More(0))
    .make(0, 1, Given::Learned(0), "{FIRST}", "{TOP}", Room::More(0))
    .apply(1, 1, Room::More(0))
    .apply(1, 0, Room::Less(1))
    .apply(1, 0, Room::More(0))
    .apply(1, 1, Room::More(0))
    .delete(1, "{ITEM}", Room::Bytes(5000))
    .make(1, 2, Given::Of(0, 1), "{ITEM}", "{ITEM}", Room::More(0))
    .make(1, 3, Given::bytes("00ff"), "{ITEM}", "{ITEM}", Room::More(0))"#
    );
    (list, text)
}

#[test]
fn a_list_is_printed_as_it_is_written_here() {
    let (list, text) = k12();
    assert_eq!(list.to_string(), text);
}

#[test]
fn a_list_that_is_pasted_here_can_be_played() {
    let mut calls = Tally::default();
    let Tried { ended, additions, .. } = try_list(&k12().0, &Reference, &Reference, &mut calls).unwrap();
    assert_eq!((ended.pairs, ended.twice), (4, 4));
    assert_eq!((additions.by_edits, additions.by_applies), (2, 2));
    let text = calls.to_string();
    assert_eq!(
        text,
        "apply: written × 2, 14 × 1, 18 × 1; delete: written × 1; edit: written × 2; make: written × 3, first 1 × 1"
    );
}

/// The error of lists on an engine that is compared with itself, so that only the machine and the laws can notice it.
fn noticed_alone(name: &str, wrong: &Wrong) -> String {
    let error = run(&PLAN, wrong, wrong).map(|lists| lists.to_string()).expect_err(name);
    let said = ["after the list", "in either order", "applied twice", "is valid", "after the round"];
    assert!(said.iter().any(|words| error.contains(words)), "{name}: {error}");
    error
}

#[test]
fn the_machine_notices_engines_that_change_in_another_way() {
    for (name, change) in CHANGES {
        noticed_alone(name, &Wrong { change: Some(change), ..Wrong::default() });
    }
}

/// Ways that end as history says wherever a list of calls can come, or refuse too much, which the machine is only told.
const RIGHT_IN_LISTS: [&str; 6] = [
    "needed projected",
    "learned merged with the given knowledge",
    "needed looked at outside the span too",
    "a later own tick taken",
    "every batch refused",
    "the batch's record wins ties",
];

#[test]
fn the_machine_notices_engines_that_make_in_another_way() {
    for (name, make) in MAKES.into_iter().filter(|(name, _)| !RIGHT_IN_LISTS.contains(name)) {
        noticed_alone(name, &Wrong { make: Some(make), ..Wrong::default() });
    }
}

#[test]
fn the_machine_notices_engines_that_apply_in_another_way() {
    for (name, apply) in APPLIES.into_iter().filter(|(name, _)| !RIGHT_IN_LISTS.contains(name)) {
        noticed_alone(name, &Wrong { apply: Some(apply), ..Wrong::default() });
    }
}

#[test]
fn figures_that_one_record_moves_too_far_are_noticed() {
    for (name, figure) in FIGURES.into_iter().filter(|(name, _)| !["always a half", "rounded down"].contains(name)) {
        let wrong = Wrong { figure: Some(figure), ..Wrong::default() };
        let error = run(&PLAN, &wrong, &Reference).map(|lists| lists.to_string()).expect_err(name);
        assert!(error.contains("moves the figure"), "{name}: {error}");
    }
}

#[test]
fn a_failing_list_is_made_small() {
    let (_, apply) = APPLIES.into_iter().find(|(name, _)| *name == "learned and records dropped").unwrap();
    let wrong = Wrong { apply: Some(apply), ..Wrong::default() };
    let error = run(&PLAN, &wrong, &Reference).unwrap_err();
    // An edit and a make are enough: that the two differ on an apply then shows after the list.
    assert!(error.starts_with("after the list, engine and reference differ on an apply\n"), "{error}");
    assert!(error.lines().filter(|line| line.starts_with("    .")).count() <= 3, "{error}");

    let error = run(&PLAN, &wrong, &wrong).unwrap_err();
    assert!(error.contains(" after the list: it has the records [], the machine"), "{error}");
    let calls: Vec<&str> = error.lines().filter_map(|line| line.strip_prefix("    .")).collect();
    let starts = ["edit(", "make(", "apply("];
    assert!(calls.len() == 3 && calls.iter().zip(starts).all(|(call, start)| call.starts_with(start)), "{error}");
}

#[test]
fn lists_that_never_come_to_something_are_noticed() {
    let refuses = Wrong { apply: Some(|_, _| Err(13)), ..Wrong::default() };
    let plan = Plan { lists: MANY, ..PLAN };
    assert!(run(&plan, &refuses, &refuses).unwrap_err().starts_with("never occurred: apply: written"));
}

#[test]
fn too_few_lists_at_a_limit_are_noticed() {
    let plan = Plan { lists: MANY, ..PLAN };
    let without = |limits: &[Limit]| {
        let draw = |random: &mut SplitMix64| match generate::style(random) {
            Style::Full(limit) if limits.contains(&limit) => Style::Usual,
            style => style,
        };
        run_styles(&plan, draw, &Reference, &Reference).map(|lists| lists.to_string())
    };
    without(&[]).unwrap();
    for (limit, number) in [(Limit::Replicas, 11), (Limit::Records, 13)] {
        let error = without(&[limit, Limit::Both]).unwrap_err();
        assert!(error.starts_with(&format!("too few: edit refused with {number} in ")), "{error}");
    }
}

/// The store, unless it has as much of something as one may have; then the number that is right for more.
fn less(after: Result<Store, u32>, number: u32) -> Result<Store, u32> {
    let after = after?;
    let (has, most) = match number {
        11 => (after.knowledge.replicas.len(), 16),
        12 => (after.knowledge.ranges.len(), 64),
        _ => (after.records.len(), 256),
    };
    if has < most { Ok(after) } else { Err(number) }
}

/// Engines with a limit that is one too low, and ones that write on the refusal at a limit.
fn wrong_at_limits() -> Vec<(Limit, Wrong)> {
    let change = |change: Change| Wrong { change: Some(change), ..Wrong::default() };
    let apply = |apply: Apply| Wrong { apply: Some(apply), ..Wrong::default() };
    let mut engines = vec![
        (Limit::Replicas, change(|store, item, tag| less(changed(store, item, tag), 11))),
        (Limit::Records, change(|store, item, tag| less(changed(store, item, tag), 13))),
        (Limit::Replicas, apply(|store, batch| less(store.applied(batch), 11))),
        (Limit::Ranges, apply(|store, batch| less(store.applied(batch), 12))),
        (Limit::Records, apply(|store, batch| less(store.applied(batch), 13))),
    ];
    for (limit, number) in [(Limit::Replicas, 11), (Limit::Ranges, 12), (Limit::Records, 13)] {
        engines.push((limit, Wrong { byte_on: Some(number), ..Wrong::default() }));
        engines.push((limit, Wrong { length_on: Some(number), ..Wrong::default() }));
    }
    engines
}

#[test]
fn engines_that_are_wrong_at_a_limit_are_noticed() {
    let noticed = |limit: Limit, engine: &Wrong| {
        let random = &mut SplitMix64::new(1);
        (0..10).any(|_| {
            let list = generate::list(random, Style::Full(limit));
            try_list(&list, engine, &Reference, &mut Tally::default()).is_err()
        })
    };
    for (place, (limit, wrong)) in wrong_at_limits().iter().enumerate() {
        assert!(noticed(*limit, wrong), "engine {place}, {limit:?}");
    }
    for limit in [Limit::Replicas, Limit::Ranges, Limit::Records, Limit::Both] {
        assert!(!noticed(limit, &Wrong::default()), "{limit:?}");
    }
}

#[test]
fn every_call_of_a_list_has_a_text() {
    let random = &mut SplitMix64::new(1);
    let list = generate::list(random, generate::Style::Usual);
    let calls = list.calls.iter().filter(|call| matches!(call, Call::Make { .. })).count();
    assert_eq!(list.to_string().matches(".make(").count(), calls);
}
