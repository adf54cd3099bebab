//! A right engine's rounds pass, wrong ones are noticed by what is looked at after a round, and each premise is looked at.

mod premises;

use inputs::{Batch, Room, SplitMix64, Store};

use super::*;
use crate::lists::generate::{self, Limit, Style};
use crate::lists::{Breach, Lists, MANY, Plan, Tried, run, try_list};
use crate::stand_in::Reference;
use crate::tally::Tally;
use crate::wrong::{APPLIES, Apply, Cover, MAKES, Wrong};

const P: &str = "00000000000000000000000000000001";
const Q: &str = "00000000000000000000000000000002";
const R: &str = "00000000000000000000000000000003";
const ITEM: &str = "000000000000000000000000000000000000000000000001";
const SECOND: &str = "000000000000000000000000000000000000000000000002";
const TOP: &str = "ffffffffffffffffffffffffffffffffffffffffffffffff";
const FIRST: &str = "000000000000000000000000000000000000000000000000";
const TAG: &str = "09090909090909090909090909090909";

const LONG: Room = Room::More(0);

/// Three replicas that have edited one item each, two of them the same one.
fn three() -> List {
    List::new(&[(P, 0), (Q, 0), (R, 0)]).edit(0, ITEM, TAG, LONG).edit(1, ITEM, TAG, LONG).edit(2, SECOND, TAG, LONG)
}

fn all(list: List, replica: usize, batch: usize, taker: usize) -> List {
    list.make(replica, batch, Given::Of(taker, 0), FIRST, TOP, LONG)
}

/// A round with the first replica as its centre.
fn round_of_three() -> List {
    let list = three().make(1, 0, Given::Nothing, FIRST, TOP, LONG).round(0, &[(1, 1, 3), (2, 2, 4)]);
    let list = all(all(list, 1, 1, 0), 2, 2, 0).apply(0, 0, LONG).apply(0, 2, LONG).apply(0, 1, LONG);
    let list = all(list.apply(0, 2, LONG).spread(), 0, 3, 1);
    all(list.apply(1, 3, LONG), 0, 4, 2).apply(2, 4, LONG)
}

/// A round with the first replica as its centre and the second one as its only district.
fn round_of_two() -> List {
    let list =
        List::new(&[(P, 0), (Q, 0)]).edit(0, ITEM, TAG, LONG).edit(1, ITEM, TAG, LONG).edit(1, SECOND, TAG, LONG);
    let list = all(list.round(0, &[(1, 0, 1)]), 1, 0, 0).apply(0, 0, LONG).spread();
    all(list, 0, 1, 1).apply(1, 1, LONG)
}

fn tried(list: &List, engine: &Wrong) -> Result<Tried, String> {
    try_list(list, engine, engine, &mut Tally::default())
}

/// The error of a list on an engine that is compared with itself.
fn error(list: &List, engine: &Wrong) -> String {
    tried(list, engine).expect_err("it is noticed")
}

#[test]
fn a_list_with_a_round_is_printed_as_it_is_written_here() {
    let text = format!(
        r#"List::new(&[("{P}", 0), ("{Q}", 0)])
    .edit(0, "{ITEM}", "{TAG}", Room::More(0))
    .edit(1, "{ITEM}", "{TAG}", Room::More(0))
    .edit(1, "{SECOND}", "{TAG}", Room::More(0))
    .round(0, &[(1, 0, 1)])
    .make(1, 0, Given::Of(0, 0), "{FIRST}", "{TOP}", Room::More(0))
    .apply(0, 0, Room::More(0))
    .spread()
    .make(0, 1, Given::Of(1, 0), "{FIRST}", "{TOP}", Room::More(0))
    .apply(1, 1, Room::More(0))"#
    );
    assert_eq!(round_of_two().to_string(), text);
    assert!(round_of_three().to_string().contains("\n    .round(0, &[(1, 1, 3), (2, 2, 4)])\n"));
}

/// What came up in a list's round.
fn counted(list: &List, engine: &Wrong) -> Vec<String> {
    let mut rounds = Rounds::default();
    rounds.add(&tried(list, engine).unwrap().round.expect("a round"));
    let text = rounds.to_string();
    text.split(", ").filter(|count| !count.ends_with(" × 0")).map(str::to_owned).collect()
}

#[test]
fn a_round_that_is_pasted_here_can_be_played() {
    let right = Wrong::default();
    let two = ["rounds × 1", "of 1 district × 1", "rounds without a refusal × 1", "changing every server × 1"];
    assert_eq!(counted(&round_of_two(), &right), two);
    let three = [
        "rounds × 1",
        "of 2 districts × 1",
        "rounds without a refusal × 1",
        "changing every server × 1",
        "with a batch of the list applied by the centre × 1",
        "with a batch applied twice × 1",
        "with a batch applied after others since its make × 1",
    ];
    assert_eq!(counted(&round_of_three(), &right), three);
}

#[test]
fn calls_beside_those_of_the_round_are_counted() {
    let mut list = round_of_two();
    list.replicas.push(([9; 16], 0));
    let round = list.round.as_mut().unwrap();
    let make =
        Call::Make { replica: 1, batch: 9, given: Given::Nothing, first: vec![3; 24], last: vec![4; 24], room: LONG };
    round.calls.insert(0, make);
    round.calls.push(Call::Edit { replica: 2, item: vec![5; 24], tag: vec![6; 16], room: LONG });
    round.gather += 1;
    let counts = counted(&list, &Wrong::default());
    assert_eq!(counts[4..], ["with changes of other servers × 1", "with other makes × 1"]);
}

#[test]
fn changes_of_the_centre_in_the_first_half_are_counted() {
    let calls = [
        Call::Edit { replica: 0, item: vec![5; 24], tag: vec![6; 16], room: LONG },
        Call::Delete { replica: 0, item: vec![0; 23].into_iter().chain([1]).collect(), room: LONG },
    ];
    for call in calls {
        for place in [0, 1, 2] {
            let mut list = round_of_two();
            let round = list.round.as_mut().unwrap();
            round.calls.insert(place, call.clone());
            round.gather += 1;
            let counts = counted(&list, &Wrong::default());
            assert_eq!(counts[4..], ["with a change of the centre in the first half × 1"]);
            let counts = counted(&with_short_buffer(list, place), &Wrong::default());
            assert_eq!(counts[4..], [""; 0]);
        }
    }
}

/// The list, where the call at a place of its round has a buffer that is too short.
fn with_short_buffer(mut list: List, place: usize) -> List {
    let calls = &mut list.round.as_mut().unwrap().calls;
    let (Call::Make { room, .. } | Call::Apply { room, .. } | Call::Edit { room, .. } | Call::Delete { room, .. }) =
        &mut calls[place];
    *room = Room::Less(1);
    list
}

#[test]
fn a_round_with_a_refusal_is_counted_as_such() {
    for (place, call) in [(0, "make"), (1, "apply"), (2, "make"), (3, "apply")] {
        let counts = counted(&with_short_buffer(round_of_two(), place), &Wrong::default());
        assert_eq!(counts, ["rounds × 1", "of 1 district × 1", "own calls refused with 14 × 1"], "{call}");
    }
    let refuses = Wrong { apply: Some(|_, _| Err(13)), ..Wrong::default() };
    let counts = counted(&round_of_two(), &refuses);
    let second = "own applies of the second half refused with 11 to 13 × 1";
    assert_eq!(counts, ["rounds × 1", "of 1 district × 1", "own calls refused with 13 × 2", second]);
}

/// A right apply, except that each one on the replica whose id ends with this byte is refused with the number.
fn refuses<const REPLICA: u8, const NUMBER: u32>(store: &Store, batch: &Batch) -> Result<Store, u32> {
    if store.own[15] == REPLICA { Err(NUMBER) } else { store.applied(batch) }
}

#[test]
fn applies_of_the_second_half_that_must_fit_are_refused_for_a_short_buffer_only() {
    let applies: [(u32, Apply); 3] = [(11, refuses::<2, 11>), (12, refuses::<2, 12>), (13, refuses::<2, 13>)];
    for (number, apply) in applies {
        let wrong = Wrong { apply: Some(apply), ..Wrong::default() };
        for (list, batch) in [(round_of_two(), 1), (round_of_three(), 3)] {
            let call = format!("apply(1, {batch}, Room::More(0))");
            let reason = format!("refused with {number}, though the centre has all that the district has");
            assert_eq!(error(&list, &wrong), format!("in the round, {call}: {reason}"));
        }
    }
    let short = Wrong { apply: Some(refuses::<2, 14>), ..Wrong::default() };
    assert_eq!(counted(&round_of_two(), &short)[2..], ["own calls refused with 14 × 1"]);
}

#[test]
fn applies_of_the_second_half_may_not_fit_where_the_centre_lacks_something() {
    let wrong = Wrong { apply: Some(refuses::<2, 13>), ..Wrong::default() };
    for place in [0, 1] {
        let counts = counted(&with_short_buffer(round_of_two(), place), &wrong);
        let second = "own applies of the second half refused with 11 to 13 × 1";
        assert_eq!(counts[2..], ["own calls refused with 13 × 1", "own calls refused with 14 × 1", second]);
    }
    // The centre applies the batch of the third replica twice. Once is enough.
    let wrong = Wrong { apply: Some(refuses::<3, 13>), ..Wrong::default() };
    let once = with_short_buffer(round_of_three(), 3);
    assert!(error(&once, &wrong).starts_with("in the round, apply(2, 4, Room::More(0)): refused with 13, though "));
    let counts = counted(&with_short_buffer(once, 5), &wrong);
    assert_eq!(counts[2..4], ["own calls refused with 13 × 1", "own calls refused with 14 × 1"]);
}

#[test]
fn applies_that_must_fit_are_counted_after_one_that_did_not() {
    // The first replica has no room for a batch of two records, as the third one's is.
    let apply: Apply = |store, batch| match (store.own[15], batch.records.len()) {
        (1, 2) => Err(13),
        _ => store.applied(batch),
    };
    let list = List { round: round_of_three().round, ..three().edit(2, TOP, TAG, LONG) };
    let counts = counted(&list, &Wrong { apply: Some(apply), ..Wrong::default() });
    let after = "own applies that must fit after one that did not × 1";
    assert_eq!(counts[2..], ["own calls refused with 13 × 1", after]);
}

#[test]
fn applies_that_fill_a_store_are_counted() {
    let fills = |list: &List| {
        let counts = counted(&List { round: round_of_two().round, ..list.clone() }, &Wrong::default());
        counts.iter().any(|count| count == "own applies that must fit and fill a store × 1")
    };
    let none = List::new(&[(P, 0), (Q, 0)]).edit(1, ITEM, TAG, LONG);
    let list = (2..256).fold(none, |list, item| list.edit(0, &format!("{item:048x}"), TAG, LONG));
    assert!(!fills(&list));
    let list = list.edit(1, TOP, TAG, LONG);
    assert!(fills(&list));
    // After the round, another one changes no store.
    let again =
        List { calls: list.calls.iter().chain(&round_of_two().round.unwrap().calls).cloned().collect(), ..list };
    assert!(!fills(&again));
}

#[test]
fn refusals_that_a_round_cannot_have_are_noticed() {
    for number in [18, 19, 20] {
        // A function cannot know the number.
        let apply: Apply = match number {
            18 => |_, _| Err(18),
            19 => |_, _| Err(19),
            _ => |_, _| Err(20),
        };
        let error = error(&round_of_two(), &Wrong { apply: Some(apply), ..Wrong::default() });
        assert!(
            error.starts_with(&format!("in the round, apply(0, 0, Room::More(0)): refused with {number}, ")),
            "{error}"
        );
    }
    let error = error(&round_of_two(), &Wrong { make: Some(|_, _, _, _| Err(12)), ..Wrong::default() });
    assert!(error.starts_with("in the round, make(1, 0, ") && error.contains(": refused with 12, "), "{error}");
}

#[test]
fn engines_and_references_that_differ_in_a_round_are_noticed() {
    let wrong = Wrong { needs_less: 1, ..Wrong::default() };
    let mut list = round_of_two();
    list.round.as_mut().unwrap().calls[3] = Call::Apply { replica: 1, batch: 1, room: Room::Less(1) };
    let error = try_list(&list, &wrong, &Reference, &mut Tally::default()).unwrap_err();
    assert!(error.starts_with("in the round, call 6, apply(1, 1, Room::Less(1)): in place: engine accepts"), "{error}");
}

/// An engine with one of the wrong ways to apply.
fn applying(name: &str) -> Wrong {
    let (_, apply) = APPLIES.into_iter().find(|(other, _)| *other == name).expect("a way");
    Wrong { apply: Some(apply), ..Wrong::default() }
}

#[test]
fn rounds_that_end_with_unlike_records_are_noticed() {
    let unlike = "after the round, replicas 0 and 1 hold unlike records";
    for name in ["the store kept", "learned and records dropped", "the store's record stays", "no new items"] {
        assert_eq!(error(&round_of_two(), &applying(name)), unlike, "{name}");
    }
    let (_, make) = MAKES.into_iter().find(|(name, _)| *name == "without the record of the last id").unwrap();
    let list = List { round: round_of_two().round, ..List::new(&[(P, 0), (Q, 0)]).edit(1, TOP, TAG, LONG) };
    assert_eq!(error(&list, &Wrong { make: Some(make), ..Wrong::default() }), unlike);
}

#[test]
fn rounds_that_end_with_unlike_knowledge_are_noticed() {
    // The second replica knows a tick of its own and has no records.
    let list = List { round: round_of_two().round, ..List::new(&[(P, 0), (Q, 7)]) };
    tried(&list, &Wrong::default()).unwrap();
    let unlike = "after the round, replicas 0 and 1 do not know the same";
    assert_eq!(error(&list, &applying("the store kept")), unlike);
}

#[test]
fn covers_that_are_wrong_after_a_round_are_noticed() {
    let noticed = |cover: Cover| error(&round_of_two(), &Wrong { cover: Some(cover), ..Wrong::default() });
    assert_eq!(noticed(|_, _| false), "after the round, replicas 0 and 1 do not know the same");
    let lacks = "after the round, replica 0 lacks something that was known before";
    assert_eq!(noticed(|[first, second], _| first == second), lacks);
}

/// The batch takes the place of what the store knows.
fn forgets(store: &Store, batch: &Batch) -> Result<Store, u32> {
    let mut after = store.applied(batch)?;
    after.knowledge = batch.learned.clone();
    after.records.retain(|record| after.knowledge.contains(&record.item, &record.change.0, record.change.1));
    Ok(after)
}

#[test]
fn rounds_that_lose_something_are_noticed() {
    let error = error(&round_of_two(), &Wrong { apply: Some(forgets), ..Wrong::default() });
    assert_eq!(error, "after the round, replica 0 lacks something that was known before");
}

#[test]
fn rounds_that_end_alike_and_not_as_history_says_are_noticed() {
    let apply: Apply = |store, batch| {
        let mut after = store.applied(batch)?;
        after.records.iter_mut().for_each(|record| record.tag = [0; 16]);
        Ok(after)
    };
    let error = error(&round_of_two(), &Wrong { apply: Some(apply), ..Wrong::default() });
    assert!(error.starts_with("replica 0 after the round: it has the records "), "{error}");
}

const PLAN: Plan = Plan { lists: 100, ..Plan::USUAL };

#[test]
fn a_failing_round_is_made_small() {
    let wrong = Wrong { cover: Some(|_, _| false), ..Wrong::default() };
    let error = run(&PLAN, &wrong, &wrong).map(|lists| lists.to_string()).unwrap_err();
    assert!(error.starts_with("after the round, replicas 0 and 1 do not know the same\n"), "{error}");
    let calls: Vec<&str> = error.lines().filter_map(|line| line.strip_prefix("    .")).collect();
    let starts = ["round(", "make(", "apply(", "spread()", "make(", "apply("];
    assert!(calls.len() == 6 && calls.iter().zip(starts).all(|(call, start)| call.starts_with(start)), "{error}");
    let replicas = error.lines().find(|line| line.starts_with("List::new")).unwrap();
    assert_eq!(replicas.matches('(').count(), 3, "{error}");
}

#[test]
fn records_that_are_counted_twice_are_noticed() {
    let apply: Apply = |store, batch| match store.records.len() + batch.records.len() {
        257.. => Err(13),
        _ => store.applied(batch),
    };
    let wrong = Wrong { apply: Some(apply), ..Wrong::default() };
    let random = &mut SplitMix64::new(1);
    let mut errors = (0..100).filter_map(|_| {
        let mut list = generate::list(random, Style::Full(Limit::Records));
        list.round = generate::round(random, &list);
        tried(&list, &wrong).err()
    });
    let error = errors.next().expect("it is noticed");
    assert!(error.ends_with(": refused with 13, though the centre has all that the district has"), "{error}");
}

#[test]
fn a_list_that_fails_without_its_round_is_printed_without_it() {
    let wrong = applying("learned and records dropped");
    let error = run(&PLAN, &wrong, &Reference).map(|lists| lists.to_string()).unwrap_err();
    assert!(error.contains("\n    .edit(") && !error.contains(".round("), "{error}");
}

#[test]
fn too_few_rounds_are_noticed() {
    let lists = run(&Plan { lists: MANY, ..PLAN }, &Reference, &Reference).unwrap();
    let none = Lists { rounds: Rounds::default(), ..lists };
    assert!(none.complete().unwrap_err().starts_with("too few: rounds × 0 after 2000 lists, not × 2000; "));
}

#[test]
fn rounds_that_break_a_premise_must_end_unalike() {
    let refuses = Wrong { apply: Some(|_, _| Err(13)), ..Wrong::default() };
    for breach in Breach::ALL {
        let broken = run_broken(&PLAN, breach, &Reference, &Reference).unwrap().to_string();
        assert!(broken.contains(": rounds × 100, "), "{broken}");
        let error = run_broken(&PLAN, breach, &refuses, &refuses).unwrap_err();
        assert!(error.starts_with("none ended unalike: ") && error.contains("without a refusal × 0"), "{error}");
    }
}
