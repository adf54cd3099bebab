//! Each side is what its name says, by the slow model.

use std::collections::BTreeSet;

use super::*;
use crate::meaning::{FIRST_ITEM, LAST_ITEM};
use crate::store::Batch;

/// Looks at some calls of a border, each with the name of its side.
fn each(name: &str, mut look: impl FnMut(&str, AnyCall)) {
    let plan = Plan { seed: 3, inputs: 4000 };
    let border = Border::named(name).expect("there is such a border");
    border
        .try_for_each(&plan, |input| {
            look(input.family, input.call);
            Ok(())
        })
        .unwrap();
}

/// The knowledge that a call normalises or makes a batch for.
fn given(call: AnyCall) -> Option<Knowledge> {
    match call {
        AnyCall::Writing(Writing::Normalise { knowledge, .. }) => Some(Knowledge::decoded(knowledge)),
        AnyCall::Changing(Changing::Make { knowledge, .. }) => Some(Knowledge::decoded(knowledge)),
        _ => None,
    }
}

/// The store that a call gets, if it is valid.
fn store(call: AnyCall) -> Option<Store> {
    match call {
        AnyCall::Reading(Reading::Knowledge { store } | Reading::Coverage { store, .. }) => Store::opened(store),
        AnyCall::Changing(
            Changing::Edit { store, .. } | Changing::Delete { store, .. } | Changing::Apply { store, .. },
        ) => Store::opened(store),
        _ => None,
    }
}

#[test]
fn a_run_has_as_many_calls_as_planned_and_is_the_same_again() {
    for border in BORDERS {
        let run = || {
            let mut calls = Vec::new();
            let plan = Plan { seed: 5, inputs: 1000 };
            border
                .try_for_each(&plan, |input| {
                    assert_eq!(input.place, calls.len());
                    calls.push(format!("{:?}", input.call));
                    Ok(())
                })
                .unwrap();
            calls
        };
        assert_eq!(run().len(), 1000);
        assert_eq!(run(), run());
    }
}

#[test]
fn a_normal_form_is_normal_and_a_breach_breaks_one_rule_mostly() {
    let mut alone = BTreeSet::new();
    each("normal form", |side, call| {
        let Some(knowledge) = given(call) else { return };
        let broken: Vec<_> = knowledge.normal_rules().into_iter().filter(|(_, holds)| !holds).collect();
        assert_eq!(broken.is_empty(), side == "normal", "{side}: {broken:?}");
        if let [(rule, _)] = broken[..] {
            alone.insert(rule);
        }
    });
    // Two of the ten rules are those of any knowledge.
    assert_eq!(alone.len(), 8, "{alone:?}");
}

#[test]
fn spans_and_knowledges_are_as_their_sides_say() {
    each("all ids", |side, call| {
        let AnyCall::Changing(Changing::Make { first_item, last_item, .. }) = call else { panic!("{call:?}") };
        assert_eq!(*first_item == FIRST_ITEM, side.starts_with("all ids") || side.contains("but the last"));
        assert_eq!(*last_item == LAST_ITEM, side.starts_with("all ids") || side.contains("but the first"));
        assert_eq!(given(call).is_some_and(|knowledge| knowledge.is_normal()), !side.ends_with("not normal"));
    });
}

#[test]
fn stores_of_owners_are_valid() {
    each("own tick", |side, call| {
        let store = store(call).expect("it is valid");
        if !side.starts_with("largest tick") {
            assert_eq!(side.starts_with("no tick"), !store.knowledge.replicas.contains(&store.own), "{side}");
        }
    });
}

#[test]
fn batches_teach_what_their_sides_say() {
    each("learned covered", |side, call| {
        let AnyCall::Changing(Changing::Apply { batch, .. }) = call else { panic!("{call:?}") };
        let (store, batch) = (store(call).expect("it is valid"), Batch::opened(batch).expect("it is valid"));
        let covered = store.knowledge.covers(&batch.learned, &FIRST_ITEM, &LAST_ITEM);
        assert_eq!(covered, ["equal bytes", "covered", "one tick needed"].contains(&side), "{side}");
        assert!(side != "equal bytes" || store.knowledge == batch.learned);
        let needed = store.knowledge.covers(&batch.needed, &batch.first, &batch.last);
        assert_eq!(needed, side != "one tick needed");
    });
}

/// A number that a vector has.
type Value<'a> = &'a dyn Fn(&[(u32, u64)]) -> u64;

#[test]
fn vectors_have_the_words_that_their_sides_say() {
    each("words alike", |side, call| {
        let Some(store) = store(call) else { return };
        let vectors = &store.knowledge.vectors[1..];
        let count = |value: Value| vectors.iter().map(|v| value(v)).collect::<BTreeSet<_>>().len();
        let halves = [count(&|vector| vector_word(vector) >> 32), count(&|vector| vector_word(vector) as u32 as u64)];
        let (words, hashes) = (count(&vector_word), count(&vector_hash));
        let all = vectors.len();
        match side {
            "words alike" | "words alike, other replicas" => assert_eq!((words, hashes), (1, 1)),
            "hashes alike" => assert_eq!((words, hashes), (all, 1)),
            "lower halves alike" => assert_eq!((words, halves[1]), (all, 1)),
            "upper halves alike" => assert!(words == all && halves[0] <= 2),
            _ => panic!("{side}"),
        }
    });
}

#[test]
fn ids_fall_into_one_slot() {
    each("slots of ids", |side, call| {
        let Some(store) = store(call) else { return };
        let slot = |id: &ReplicaId| id[0].wrapping_add(id[15]) % 64;
        let slots = store.knowledge.replicas.iter().map(slot).collect::<BTreeSet<_>>().len();
        let right = if side == "a slot for each id" { store.knowledge.replicas.len() } else { 1 };
        assert_eq!(slots, right, "{side}");
    });
}
