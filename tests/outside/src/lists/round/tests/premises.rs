//! Each premise of a round is looked at, and nothing else.

use super::*;

const SERVERS: &str = "the servers are not distinct";
const CENTRE_CHANGES: &str = "the centre edits, deletes or applies in the second half";
const DISTRICT_ELSE: &str = "a district changes or applies anything else in the second half";
const NAMES: &str = "two batches have one name";
const NOT_FOR_THE_TAKER: &str = "a batch is not made for what its taker knows at that moment";
const NOT_APPLIED: &str = "a batch is not applied in its half";

fn edit(replica: usize) -> Call {
    Call::Edit { replica, item: vec![7; 24], tag: vec![7; 16], room: LONG }
}

fn delete(replica: usize) -> Call {
    Call::Delete { replica, item: vec![7; 24], room: LONG }
}

fn apply(replica: usize, batch: usize) -> Call {
    Call::Apply { replica, batch, room: LONG }
}

fn make(replica: usize, batch: usize) -> Call {
    Call::Make { replica, batch, given: Given::Nothing, first: vec![7; 24], last: vec![8; 24], room: LONG }
}

/// The premises of the round of three, where something is another.
fn premises(another: impl FnOnce(&mut Round)) -> Result<(), &'static str> {
    let mut round = round_of_three().round.unwrap();
    another(&mut round);
    round.premises()
}

/// The same with a call more in the first half, and with one more in the second.
fn with(call: &Call) -> [Result<(), &'static str>; 2] {
    let first = premises(|round| {
        round.calls.insert(1, call.clone());
        round.gather += 1;
    });
    [first, premises(|round| round.calls.insert(round.gather + 1, call.clone()))]
}

#[test]
fn calls_that_may_stand_in_a_half() {
    assert_eq!(premises(|_| ()), Ok(()));
    for replica in 0..4 {
        assert_eq!(with(&make(replica, 9)), [Ok(()), Ok(())]);
    }
    for call in [edit(3), delete(3), apply(3, 0)] {
        assert_eq!(with(&call), [Ok(()), Ok(())]);
    }
    for call in [edit(0), delete(0), apply(0, 0)] {
        assert_eq!(with(&call), [Ok(()), Err(CENTRE_CHANGES)]);
    }
    for district in [1, 2] {
        for call in [edit(district), delete(district), apply(district, 0)] {
            assert_eq!(with(&call), [Err(DISTRICT_CHANGES), Err(DISTRICT_ELSE)]);
        }
    }
    assert_eq!(with(&make(1, 1)), [Err(NAMES), Err(NAMES)]);
}

#[test]
fn servers_are_distinct() {
    assert_eq!(premises(|round| round.centre = 1), Err(SERVERS));
    assert_eq!(premises(|round| round.districts[0].replica = 2), Err(SERVERS));
    assert_eq!(premises(|round| round.districts.clear()), Err(SERVERS));
    assert_eq!(premises(|round| round.districts[0].down = 1), Err(NAMES));
}

/// The premises, where the make at a place is another.
fn with_make(place: usize, another: impl Fn(&mut usize, &mut Given, [&mut Vec<u8>; 2])) -> Result<(), &'static str> {
    premises(|round| match &mut round.calls[place] {
        Call::Make { replica, given, first, last, .. } => another(replica, given, [first, last]),
        call => panic!("{call}"),
    })
}

#[test]
fn batches_are_made_over_all_ids_for_their_takers() {
    for (place, taker) in [(0, 0), (1, 0), (6, 1), (8, 2)] {
        assert_eq!(with_make(place, |_, _, _| ()), Ok(()));
        assert_eq!(with_make(place, |replica, _, _| *replica = 3), Err("a batch is made by another server"));
        for other in [Given::Nothing, Given::Of(taker, 1), Given::Of(3, 0)] {
            assert_eq!(with_make(place, |_, given, _| *given = other.clone()), Err(NOT_FOR_THE_TAKER));
        }
        assert_eq!(with_make(place, |_, _, [first, _]| first[23] = 1), Err(NOT_ALL_IDS));
        assert_eq!(with_make(place, |_, _, [_, last]| last[23] = 254), Err(NOT_ALL_IDS));
    }
}

#[test]
fn batches_are_made_and_then_applied_in_their_half() {
    let without = |place: usize| {
        premises(|round| {
            round.calls.remove(place);
            round.gather -= usize::from(place < round.gather);
        })
    };
    for place in [0, 1, 6, 8] {
        assert_eq!(without(place), Err(NOT_MADE));
    }
    for place in [4, 7, 9] {
        assert_eq!(without(place), Err(NOT_APPLIED));
    }
    // A batch of the list, and one that is applied twice.
    for place in [2, 3, 5] {
        assert_eq!(without(place), Ok(()));
    }
    assert_eq!(premises(|round| round.calls.swap(0, 4)), Err(NOT_APPLIED));
    assert_eq!(premises(|round| round.calls.swap(6, 7)), Err(NOT_APPLIED));
    assert_eq!(premises(|round| round.gather = 7), Err(NOT_MADE));
    assert_eq!(premises(|round| round.gather = 0), Err(CENTRE_CHANGES));
}
