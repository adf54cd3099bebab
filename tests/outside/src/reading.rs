//! Comparing the calls that read stores, batches and tables of records with those of the reference. Parts are compared by their
//! places and by their bytes.

use std::cell::Cell;
use std::ops::Range;

use inputs::{CallInput, Plan, Reading, Readings};
use reference::{Coverage, Winner};

use crate::one::{self, Value};
use crate::row::{self, Compare, Compared, Show, Shown};
use crate::tally::{Ends, Outcome, Tally};

/// A record that was found: side 1 for the store, 2 for the batch, with its place and length; all 0 for none.
#[derive(Clone, Copy, Debug, PartialEq, Eq)]
pub struct Found {
    pub side: u32,
    pub at: u64,
    pub length: u64,
}

impl Value for Found {
    fn filled(byte: u8) -> Self {
        Self { side: Value::filled(byte), at: Value::filled(byte), length: Value::filled(byte) }
    }
}

/// An engine's calls that read. Each gives 0 and sets the value, or gives the number of the refusal and leaves the value alone. A part
/// is set as its place and its length.
pub trait Engine {
    fn winner(&self, store: &[u8], batch: &[u8], item: &[u8], found: &mut Found) -> u32;
    fn learned(&self, batch: &[u8], part: &mut [u64; 2]) -> u32;
    fn coverage(&self, store: &[u8], knowledge: &[u8], counts: &mut [u64; 3]) -> u32;
    fn knowledge(&self, store: &[u8], part: &mut [u64; 2]) -> u32;
    fn walk(&self, table: &[u8], at: u64, length: &mut u64) -> u32;
}

const PART: &str = "a part";

const ENDS: [Ends; 5] = [
    Ends { call: "winner", answers: &["neither", "store", "batch"], knowledges: 0, ids: true, others: &[15, 16] },
    Ends { call: "learned", answers: &[PART], knowledges: 0, ids: false, others: &[16] },
    Ends {
        call: "coverage",
        answers: &["no records", "none", "some", "all"],
        knowledges: 1,
        ids: false,
        others: &[15],
    },
    Ends { call: "knowledge", answers: &[PART], knowledges: 0, ids: false, others: &[15] },
    Ends { call: "walk", answers: &["a record", "the end"], knowledges: 0, ids: false, others: &[] },
];

/// Compares the engine with the reference on all calls of the plan that read. The error says where they first differ, or what
/// never occurred.
pub fn run(plan: &Plan, engine: &impl Engine) -> Result<Tally, String> {
    row::run::<Readings, _>(plan, engine)
}

impl<E: Engine> Compare<E> for Readings {
    const ENDS: &'static [Ends] = &ENDS;

    fn compare(input: &CallInput<Reading>, engine: &E, _: &mut [u8]) -> Compared {
        compare(input, engine)
    }
}

impl Show for Readings {
    fn show<'a>(call: &'a Reading<'_>) -> Shown<'a> {
        let (call, arguments) = match *call {
            Reading::Winner { store, batch, item } => ("winner", vec![store, batch, item]),
            Reading::Learned { batch } => ("learned", vec![batch]),
            Reading::Coverage { store, knowledge } => ("coverage", vec![store, knowledge]),
            Reading::Knowledge { store } => ("knowledge", vec![store]),
            Reading::Walk { table, at } => {
                return Shown { call: "walk", arguments: vec![table], also: format!(", at {at}") };
            }
        };
        Shown { call, arguments, also: String::new() }
    }
}

/// Compares the coverage of stores with 0 to 256 records by knowledges that contain 0 to all of these, with the reference and with the
/// slow model. Gives how many there are.
pub fn every_share(engine: &impl Engine) -> Result<usize, String> {
    let mut place = 0;
    for all in 0..=256 {
        let store = inputs::store_of(all);
        let bytes = &store.bytes();
        for contained in 0..=all {
            let knowledge = inputs::containing(contained);
            let right = store.coverage(&knowledge);
            let call = Reading::Coverage { store: bytes, knowledge: &knowledge.bytes() };
            let input = CallInput { place, family: "every share", call };
            if reference::coverage(bytes, &knowledge.bytes()).map(counts) != Ok(right) {
                return Err(format!("coverage, {contained} of {all}: reference and slow model differ"));
            }
            compare(&input, engine).map_err(|difference| format!("coverage, {contained} of {all}: {difference}"))?;
            place += 1;
        }
    }
    Ok(place)
}

/// What is found for a winner.
pub fn found(winner: Winner) -> Found {
    let found = |side, place: Range<usize>| Found { side, at: place.start as u64, length: place.len() as u64 };
    match winner {
        Winner::Neither => found(0, 0..0),
        Winner::Store(place) => found(1, place),
        Winner::Batch(place) => found(2, place),
    }
}

/// The three numbers of a coverage.
pub fn counts(coverage: Coverage) -> [u64; 3] {
    [coverage.contained, coverage.all, coverage.thousandths]
}

/// Place and length.
pub fn part(place: Range<usize>) -> [u64; 2] {
    [place.start as u64, place.len() as u64]
}

/// The bytes of a part; none where it is not inside.
fn bytes_of(bytes: &[u8], [at, length]: [u64; 2]) -> Option<&[u8]> {
    let at = usize::try_from(at).ok()?;
    bytes.get(at..)?.get(..usize::try_from(length).ok()?)
}

/// The bytes of a record that was found; none where it is not inside.
fn record_of<'a>(found: Found, store: &'a [u8], batch: &'a [u8]) -> Option<&'a [u8]> {
    match found.side {
        0 => Some(&[]),
        1 => bytes_of(store, [found.at, found.length]),
        _ => bytes_of(batch, [found.at, found.length]),
    }
}

/// Compares the two on one call, and gives its name and how both say that it ends.
fn compare(input: &CallInput<Reading>, engine: &impl Engine) -> Compared {
    match input.call {
        Reading::Winner { store, batch, item } => {
            let answer = reference::winner(store, batch, item).map(found);
            let same = Cell::new(true);
            one::compare(input.place, [store, batch, item], answer, |[store_copy, batch_copy, item], found| {
                let number = engine.winner(store_copy, batch_copy, item, found);
                let right = answer.ok().and_then(|answer| record_of(answer, store, batch));
                same.set(same.get() && (number != 0 || record_of(*found, store_copy, batch_copy) == right));
                number
            })?;
            same_bytes(&same)?;
            let names = |found: Found| ["neither", "store", "batch"][found.side as usize];
            Ok(("winner", Outcome::of(answer.map(names), &[])))
        }
        Reading::Learned { batch } => {
            let answer = reference::learned(batch).map(part);
            compare_part(input.place, batch, answer, |batch, part| engine.learned(batch, part))?;
            Ok(("learned", Outcome::of(answer.map(|_| PART), &[])))
        }
        Reading::Coverage { store, knowledge } => {
            let answer = reference::coverage(store, knowledge).map(counts);
            one::compare(input.place, [store, knowledge], answer, |[store, knowledge], counts| {
                engine.coverage(store, knowledge, counts)
            })?;
            let name = |[contained, all, _]: [u64; 3]| match (contained, all) {
                (_, 0) => "no records",
                (0, _) => "none",
                _ if contained == all => "all",
                _ => "some",
            };
            Ok(("coverage", Outcome::of(answer.map(name), knowledge)))
        }
        Reading::Knowledge { store } => {
            let answer = reference::knowledge(store).map(part);
            compare_part(input.place, store, answer, |store, part| engine.knowledge(store, part))?;
            Ok(("knowledge", Outcome::of(answer.map(|_| PART), &[])))
        }
        Reading::Walk { table, at } => {
            let answer = reference::walk(table, at);
            one::compare(input.place, [table], Ok(answer), |[table], length| engine.walk(table, at, length))?;
            Ok(("walk", Outcome::Answer(if answer == 0 { "the end" } else { "a record" })))
        }
    }
}

/// Compares a call that gives a part of its only argument.
fn compare_part(
    place: usize,
    bytes: &[u8],
    answer: Result<[u64; 2], u32>,
    engine: impl Fn(&[u8], &mut [u64; 2]) -> u32,
) -> Result<(), String> {
    let same = Cell::new(true);
    one::compare(place, [bytes], answer, |[copy], part| {
        let number = engine(copy, part);
        let right = answer.ok().and_then(|answer| bytes_of(bytes, answer));
        same.set(same.get() && (number != 0 || bytes_of(copy, *part) == right));
        number
    })?;
    same_bytes(&same)
}

fn same_bytes(same: &Cell<bool>) -> Result<(), String> {
    if same.get() { Ok(()) } else { Err("the bytes of the parts differ".to_owned()) }
}

#[cfg(test)]
mod tests;
