//! The comparison at the borders passes a right engine and notices one that takes a shorter way a step too far.

use inputs::{BORDERS, FIRST_ITEM, ItemId, Knowledge, LAST_ITEM, Record, ReplicaId, Store, vector_hash, vector_word};

use super::hasty::{Changed, Contains, Covers, Elements, Hasty, Keeps, Same, Whole};
use super::*;

const PLAN: Plan = Plan { inputs: 6000, ..Plan::USUAL };

fn at(name: &str, engine: &Hasty) -> Result<Sides, String> {
    run(Border::named(name).expect("there is such a border"), &PLAN, engine)
}

fn is_noticed(border: &str, what: &str, engine: &Hasty) {
    let Err(error) = at(border, engine) else { panic!("{border}: {what} is not noticed") };
    assert!(error.contains("in place: engine "), "{border}, {what}: {error}");
}

#[test]
fn a_right_engine_passes() {
    for border in BORDERS {
        let sides = at(border.name, &Hasty::default()).unwrap_or_else(|error| panic!("{error}"));
        assert_eq!(sides.calls(), PLAN.inputs);
    }
}

#[test]
fn sides_without_calls_or_with_other_ends_are_noticed() {
    let empty = || Sides { border: BORDERS[1], counts: BTreeMap::new() };
    assert!(empty().complete(&PLAN).is_err_and(|error| error.starts_with("too few calls: all ids, normal")));
    let mut refused = empty();
    for side in BORDERS[1].sides {
        (0..PLAN.inputs).for_each(|_| refused.add(side.name, Outcome::Other(15)).expect("it is a side"));
    }
    assert!(refused.complete(&PLAN).is_err_and(|error| error.starts_with("too few calls that end with Answer")));
    assert!(empty().add("any", Outcome::Other(15)).is_err());
}

#[test]
fn a_copy_of_what_breaks_one_rule_is_noticed() {
    let rules = Knowledge::smallest().normal_rules().map(|(name, _)| name);
    for rule in rules.into_iter().filter(|rule| !["bounds rise", "first is empty"].contains(rule)) {
        let copies =
            |knowledge: &Knowledge| knowledge.normal_rules().iter().all(|(name, holds)| *holds || *name == rule);
        let engine = Hasty { copies: Some(&copies), ..Hasty::default() };
        is_noticed("normal form", rule, &engine);
        is_noticed("all ids", rule, &engine);
    }
}

#[test]
fn a_copy_for_a_span_without_an_end_is_noticed() {
    let wholes: [(&str, Whole); 2] = [
        ("the last id not looked at", &|[first, _]| *first == FIRST_ITEM),
        ("the first id not looked at", &|[_, last]| *last == LAST_ITEM),
    ];
    for (what, whole) in wholes {
        is_noticed("all ids", what, &Hasty { whole: Some(whole), ..Hasty::default() });
    }
}

/// The knowledge of a store with a tick written over the elements that the place says, by key and elements.
fn written_over(store: &Store, tick: u64, place: impl Fn(usize, usize, &Elements) -> Option<usize>) -> Knowledge {
    let mut knowledge = store.knowledge.clone();
    let key = knowledge.replicas.iter().position(|id| *id == store.own).expect("it has a tick");
    for (number, vector) in knowledge.vectors.iter_mut().enumerate().skip(1) {
        let at = place(number, key, vector).filter(|at| *at < vector.len());
        at.into_iter().for_each(|at| vector[at].1 = tick);
    }
    knowledge
}

#[test]
fn a_tick_written_at_a_wrong_place_is_noticed() {
    let found = |key: usize, vector: &Elements| vector.iter().position(|(other, _)| *other as usize == key);
    let changes: [(&str, Changed); 4] = [
        ("where the key says", &|store, tick| written_over(store, tick, |_, key, _| Some(key))),
        ("first vector only", &|store, tick| {
            written_over(store, tick, |number, key, vector| if number == 1 { found(key, vector) } else { None })
        }),
        ("not the last element", &|store, tick| {
            written_over(store, tick, |_, key, vector| found(key, vector).filter(|at| at + 1 < vector.len()))
        }),
        ("the tick before", &|store, tick| written_over(store, tick - 1, |_, key, vector| found(key, vector))),
    ];
    for (what, changed) in changes {
        is_noticed("own tick", what, &Hasty { changed: Some(changed), ..Hasty::default() });
    }
}

/// Whether a store covers what a batch teaches at the places and for the replicas that are looked at.
fn covered(store: &Store, batch: &Batch, looks: impl Fn(usize, usize, &ReplicaId) -> bool) -> bool {
    let (known, learned) = (&store.knowledge, &batch.learned);
    let mut places = known.bounds();
    places.extend(learned.bounds());
    let last = places.len() - 1;
    places.iter().enumerate().all(|(place, item)| {
        let mut replicas = learned.replicas.iter().filter(|id| looks(place, last, id));
        replicas.all(|id| known.known(item, id) >= learned.known(item, id))
    })
}

#[test]
fn a_store_kept_where_one_tick_is_learned_is_noticed() {
    let keeps: [(&str, Keeps); 4] = [
        ("the first range not looked at", &|store, batch| covered(store, batch, |place, _, _| place > 0)),
        ("the last range not looked at", &|store, batch| covered(store, batch, |place, last, _| place < last)),
        ("the ends only", &|store, batch| covered(store, batch, |place, last, _| place == 0 || place == last)),
        ("new replicas not looked at", &|store, batch| {
            covered(store, batch, |_, _, id| store.knowledge.replicas.contains(id))
        }),
    ];
    for (what, keeps) in keeps {
        is_noticed("learned covered", what, &Hasty { keeps: Some(keeps), ..Hasty::default() });
    }
}

#[test]
fn vectors_taken_for_the_same_or_for_unlike_are_noticed() {
    let upper = |vector: &Elements| vector_word(vector) >> 32;
    let same: [(&str, Same); 5] = [
        ("by words", &|a, b| vector_word(a) == vector_word(b)),
        ("by hashes", &|a, b| vector_hash(a) == vector_hash(b)),
        ("by lower halves", &|a, b| vector_word(a) as u32 == vector_word(b) as u32),
        ("by upper halves", &|a, b| upper(a) == upper(b)),
        ("never", &|_, _| false),
    ];
    for (what, same) in same {
        is_noticed("words alike", what, &Hasty { same: Some(same), ..Hasty::default() });
    }
}

#[test]
fn keys_that_a_slot_says_are_noticed() {
    let slot = |id: &ReplicaId| id[0].wrapping_add(id[15]) % 64;
    let by = |knowledge: &Knowledge, record: &Record, found: &dyn Fn(&ReplicaId, &ReplicaId) -> bool| {
        [record.change, record.create].iter().all(|(id, tick)| {
            let replica = knowledge.replicas.iter().rfind(|other| found(other, id));
            replica.is_some_and(|replica| knowledge.contains(&record.item, replica, *tick))
        })
    };
    let contains: [(&str, Contains); 3] = [
        ("the slot alone", &|knowledge, record| by(knowledge, record, &|a, b| slot(a) == slot(b))),
        ("both ends", &|knowledge, record| by(knowledge, record, &|a, b| (a[0], a[15]) == (b[0], b[15]))),
        ("a version more", &|knowledge, record| {
            let less = |tick: u64| tick.saturating_sub(1).max(1);
            let (change, create) = (record.change, record.create);
            let record =
                Record { change: (change.0, less(change.1)), create: (create.0, less(create.1)), ..record.clone() };
            by(knowledge, &record, &|a, b| a == b)
        }),
    ];
    for (what, contains) in contains {
        is_noticed("slots of ids", what, &Hasty { contains: Some(contains), ..Hasty::default() });
    }
}

#[test]
fn a_cover_that_leaves_an_end_out_is_noticed() {
    let at = |first: &Knowledge, second: &Knowledge, places: &[ItemId], ids: &[ReplicaId]| {
        places.iter().all(|item| ids.iter().all(|id| first.known(item, id) >= second.known(item, id)))
    };
    let inside = |knowledge: &Knowledge, first: &ItemId, last: &ItemId| -> Vec<ItemId> {
        knowledge.bounds().into_iter().filter(|bound| first <= bound && bound <= last).collect()
    };
    let covers: [(&str, Covers); 4] = [
        ("at bounds only", &|[a, b], [first, last]| {
            at(a, b, &inside(a, first, last), &b.replicas) && at(a, b, &inside(b, first, last), &b.replicas)
        }),
        ("at the first's bounds only", &|[a, b], [first, last]| {
            at(a, b, &inside(a, first, last), &b.replicas) && at(a, b, &[*first], &b.replicas)
        }),
        ("replicas of the first only", &|[a, b], [first, last]| {
            at(a, b, &inside(b, first, last), &a.replicas) && at(a, b, &[*first], &a.replicas)
        }),
        ("all ids", &|[a, b], _| a.covers(b, &FIRST_ITEM, &LAST_ITEM)),
    ];
    for (what, covers) in covers {
        is_noticed("cover by places", what, &Hasty { covers: Some(covers), ..Hasty::default() });
    }
}
