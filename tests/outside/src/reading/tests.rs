//! The comparison passes a right engine and notices wrong ones.

use inputs::{Batch, ItemId, Knowledge, Record, Store};

use super::*;
use crate::lenient;
use crate::stand_in::Reference;

/// Twice as many as there are fixed ones, so that all of these are in the run.
const PLAN: Plan = Plan { inputs: 126_000, ..Plan::USUAL };

type WinnerOf = fn(&Store, &Batch, &ItemId) -> (u32, usize);
type Counts = fn(&Store, &Knowledge) -> [u64; 3];
type Place = fn(&[u8], [u64; 2]) -> [u64; 2];
type Walk = fn(&[u8], u64) -> u64;
type Number = fn(&str, [&[u8]; 3], u32) -> u32;

/// An engine that is right where no other way is given.
#[derive(Default)]
struct Fake {
    /// A rule of stores that it does not look at, and one of batches.
    store_rule: Option<&'static str>,
    batch_rule: Option<&'static str>,
    winner: Option<WinnerOf>,
    coverage: Option<Counts>,
    /// What it makes of the right places of learned and knowledge.
    place: Option<Place>,
    walk: Option<Walk>,
    /// The number that it gives instead of the right one, by call and arguments.
    number: Option<Number>,
    /// The call that sets its value to 0 on a refusal.
    sets_on_refusal: Option<&'static str>,
}

impl Fake {
    fn store(&self, bytes: &[u8]) -> Result<Store, u32> {
        let store = lenient::store(bytes).filter(|(_, rules)| lenient::hold(rules, self.store_rule));
        store.map(|(store, _)| store).ok_or(15)
    }

    fn batch(&self, bytes: &[u8]) -> Result<Batch, u32> {
        let batch = lenient::batch(bytes).filter(|(_, rules)| lenient::hold(rules, self.batch_rule));
        batch.map(|(batch, _)| batch).ok_or(16)
    }

    fn give<T>(&self, call: &str, arguments: [&[u8]; 3], answer: Result<T, u32>, value: &mut T, nothing: T) -> u32 {
        let number = match answer {
            Ok(right) => {
                *value = right;
                0
            }
            Err(number) => {
                if self.sets_on_refusal == Some(call) {
                    *value = nothing;
                }
                number
            }
        };
        self.number.map_or(number, |change| change(call, arguments, number))
    }

    /// Whether it opens stores and batches in a way of its own.
    fn opens(&self) -> bool {
        self.store_rule.is_some() || self.batch_rule.is_some()
    }
}

/// A record found by its side and its place among that side's records.
fn found_at((side, record): (u32, usize), store: &Store, batch: &Batch) -> Found {
    let start = match side {
        0 => return Found { side: 0, at: 0, length: 0 },
        1 => Store::HEADER + store.knowledge.bytes().len(),
        _ => Batch::HEADER + batch.needed.bytes().len() + batch.learned.bytes().len(),
    };
    Found { side, at: (start + record * Record::LENGTH) as u64, length: Record::LENGTH as u64 }
}

impl Engine for Fake {
    fn winner(&self, store: &[u8], batch: &[u8], item: &[u8], found: &mut Found) -> u32 {
        let nothing = Found { side: 0, at: 0, length: 0 };
        let mut right = nothing;
        let answer = match (self.winner, Reference.winner(store, batch, item, &mut right)) {
            (_, number @ 1..) if !self.opens() => Err(number),
            (None, 0) => Ok(right),
            (way, _) => (|| {
                let (store, batch) = (self.store(store)?, self.batch(batch)?);
                let item = ItemId::try_from(item).map_err(|_| 17u32)?;
                let winner = way.map_or_else(|| store.winner(&batch, &item), |way| way(&store, &batch, &item));
                Ok(found_at(winner, &store, &batch))
            })(),
        };
        self.give("winner", [store, batch, item], answer, found, nothing)
    }

    fn learned(&self, batch: &[u8], part: &mut [u64; 2]) -> u32 {
        let mut right = [0; 2];
        let answer = match Reference.learned(batch, &mut right) {
            0 => Ok(self.place.map_or(right, |place| place(batch, right))),
            number if !self.opens() => Err(number),
            _ => self.batch(batch).map(|batch| {
                let start = Batch::HEADER + batch.needed.bytes().len();
                [start as u64, batch.learned.bytes().len() as u64]
            }),
        };
        self.give("learned", [batch, &[], &[]], answer, part, [0; 2])
    }

    fn coverage(&self, store: &[u8], knowledge: &[u8], counts: &mut [u64; 3]) -> u32 {
        let mut right = [0; 3];
        let answer = match (self.coverage, Reference.coverage(store, knowledge, &mut right)) {
            (_, number @ 1..) if !self.opens() => Err(number),
            (None, 0) => Ok(right),
            (way, _) => self.store(store).and_then(|store| {
                let knowledge = reference::check(knowledge).map(|_| Knowledge::decoded(knowledge))?;
                Ok(way.map_or_else(|| store.coverage(&knowledge), |way| way(&store, &knowledge)))
            }),
        };
        self.give("coverage", [store, knowledge, &[]], answer, counts, [0; 3])
    }

    fn knowledge(&self, store: &[u8], part: &mut [u64; 2]) -> u32 {
        let mut right = [0; 2];
        let answer = match Reference.knowledge(store, &mut right) {
            0 => Ok(self.place.map_or(right, |place| place(store, right))),
            number if !self.opens() => Err(number),
            _ => self.store(store).map(|store| [Store::HEADER as u64, store.knowledge.bytes().len() as u64]),
        };
        self.give("knowledge", [store, &[], &[]], answer, part, [0; 2])
    }

    fn walk(&self, table: &[u8], at: u64, length: &mut u64) -> u32 {
        let right = reference::walk(table, at);
        self.give("walk", [table, &[], &[]], Ok(self.walk.map_or(right, |walk| walk(table, at))), length, 0)
    }
}

fn is_noticed(name: &str, fake: &Fake) {
    let error = run(&PLAN, fake).expect_err(name);
    assert!(error.contains("in place: engine "), "{name}: {error}");
}

#[test]
fn a_right_engine_passes() {
    let tally = run(&PLAN, &Fake::default()).unwrap();
    assert_eq!(tally.calls(), PLAN.inputs as u64);
}

#[test]
fn an_engine_that_leaves_a_rule_of_validity_out_is_noticed() {
    for rule in lenient::STORE_RULES {
        is_noticed(rule, &Fake { store_rule: Some(rule), ..Fake::default() });
    }
    for rule in lenient::BATCH_RULES {
        is_noticed(rule, &Fake { batch_rule: Some(rule), ..Fake::default() });
    }
    // With no rule left out the slow way of opening is right; a short run need not have every answer.
    let slow = Fake { store_rule: Some("none"), batch_rule: Some("none"), ..Fake::default() };
    let short = run(&Plan { inputs: 5_000, ..PLAN }, &slow);
    assert!(short.as_ref().err().is_none_or(|error| error.starts_with("never occurred")), "{short:?}");
}

/// The winner where the batch's record wins if it is above the store's by some rank.
fn by<R: PartialOrd>(store: &Store, batch: &Batch, item: &ItemId, rank: impl Fn(&Record) -> R) -> (u32, usize) {
    let place = |records: &[Record]| records.iter().position(|record| record.item == *item);
    match (place(&store.records), place(&batch.records)) {
        (Some(here), Some(there)) if rank(&batch.records[there]) > rank(&store.records[here]) => (2, there),
        (Some(here), _) => (1, here),
        (None, Some(there)) => (2, there),
        (None, None) => (0, 0),
    }
}

#[test]
fn an_engine_with_another_winner_is_noticed() {
    let wrong: [(&str, WinnerOf); 9] = [
        ("the store's", |store, batch, item| by(store, batch, item, |_| 0)),
        ("the batch's", |store, batch, item| match store.winner(batch, item) {
            (1, here) => batch.records.iter().position(|record| record.item == *item).map_or((1, here), |at| (2, at)),
            other => other,
        }),
        ("the tick only", |store, batch, item| by(store, batch, item, |record| record.change.1)),
        ("the replica first", |store, batch, item| by(store, batch, item, |record| record.change)),
        ("the create version", |store, batch, item| {
            by(store, batch, item, |record| (record.create.1, record.create.0))
        }),
        ("ticks of four bytes", |store, batch, item| {
            by(store, batch, item, |record| (record.change.1 as u32, record.change.0))
        }),
        ("the replica's last byte", |store, batch, item| {
            by(store, batch, item, |record| (record.change.1, record.change.0[15]))
        }),
        ("the replica's first byte", |store, batch, item| {
            by(store, batch, item, |record| (record.change.1, record.change.0[0]))
        }),
        ("the batch's of equal versions", |store, batch, item| match store.winner(batch, item) {
            (1, here) => match batch.records.iter().position(|record| record.item == *item) {
                Some(there) if batch.records[there].change == store.records[here].change => (2, there),
                _ => (1, here),
            },
            other => other,
        }),
    ];
    for (name, winner) in wrong {
        is_noticed(name, &Fake { winner: Some(winner), ..Fake::default() });
    }
}

/// The coverage with another figure, for a store with records.
fn rounded(store: &Store, knowledge: &Knowledge, figure: fn(u64, u64) -> u64) -> [u64; 3] {
    match store.coverage(knowledge) {
        [0, 0, right] => [0, 0, right],
        [contained, all, _] => [contained, all, figure(contained, all)],
    }
}

#[test]
fn an_engine_with_another_coverage_is_noticed() {
    let wrong: [(&str, Counts); 7] = [
        ("rounded up", |store, knowledge| rounded(store, knowledge, |contained, all| (1000 * contained).div_ceil(all))),
        ("rounded down", |store, knowledge| rounded(store, knowledge, |contained, all| 1000 * contained / all)),
        ("a half down", |store, knowledge| {
            rounded(store, knowledge, |contained, all| (2000 * contained + all - 1) / (2 * all))
        }),
        ("0 for no records", |store, knowledge| match store.coverage(knowledge) {
            [0, 0, _] => [0, 0, 0],
            other => other,
        }),
        ("no tombstones", |store, knowledge| {
            let mut live = store.clone();
            live.records.retain(|record| record.kind == 1);
            live.coverage(knowledge)
        }),
        ("the create version", |store, knowledge| {
            let mut created = store.clone();
            created.records.iter_mut().for_each(|record| record.change = record.create);
            created.coverage(knowledge)
        }),
        ("the store's own keys", |store, knowledge| {
            let mut knowledge = knowledge.clone();
            knowledge.replicas.clone_from(&store.knowledge.replicas);
            store.coverage(&knowledge)
        }),
    ];
    assert_eq!(every_share(&Fake::default()), Ok(257 * 258 / 2));
    for (name, coverage) in wrong {
        let engine = Fake { coverage: Some(coverage), ..Fake::default() };
        is_noticed(name, &engine);
        // There all versions are of one replica, whose key is the same in both.
        assert_eq!(every_share(&engine).is_ok(), name == "the store's own keys", "{name}");
    }
}

#[test]
fn an_engine_that_gives_another_part_is_noticed() {
    let wrong: [(&str, Place); 4] = [
        ("one byte later", |_, [at, length]| [at + 1, length]),
        ("one byte longer", |_, [at, length]| [at, length + 1]),
        ("up to the end", |bytes, [at, _]| [at, bytes.len() as u64 - at]),
        ("the needed knowledge", |bytes, part| if bytes[0] == 4 { [61, part[0] - 61] } else { part }),
    ];
    for (name, place) in wrong {
        is_noticed(name, &Fake { place: Some(place), ..Fake::default() });
    }
    let wrong: [(&str, Walk); 6] = [
        ("any kind", |table, at| if table.len() as u64 >= at.saturating_add(89) { 89 } else { 0 }),
        ("no tombstones", |table, at| if table.get(at as usize) == Some(&2) { 0 } else { reference::walk(table, at) }),
        (
            "cut records",
            |table, at| if table.get(at as usize).is_some_and(|kind| [1, 2].contains(kind)) { 89 } else { 0 },
        ),
        ("kind 3", |table, at| match table.get(at as usize) {
            Some(3) if table.len() as u64 - at >= 25 => 25,
            _ => reference::walk(table, at),
        }),
        ("one byte behind is needed", |table, at| {
            if table.len() as u64 == at.saturating_add(89) { 0 } else { reference::walk(table, at) }
        }),
        ("a place of four bytes", |table, at| reference::walk(table, u64::from(at as u32))),
    ];
    for (name, walk) in wrong {
        is_noticed(name, &Fake { walk: Some(walk), ..Fake::default() });
    }
}

#[test]
fn an_engine_that_gives_a_wrong_number_is_noticed() {
    let wrong: [(&str, Number); 5] = [
        ("winner, 17 first", |call, [.., item], number| if call == "winner" && item.len() != 24 { 17 } else { number }),
        ("winner, the batch first", |call, [_, batch, _], number| {
            if call == "winner" { reference::learned(batch).err().unwrap_or(number) } else { number }
        }),
        ("winner, 17 never", |_, _, number| if number == 17 { 0 } else { number }),
        ("coverage, the knowledge first", |call, [_, knowledge, _], number| {
            if call == "coverage" { reference::check(knowledge).err().unwrap_or(number) } else { number }
        }),
        ("the number of the knowledge inside", |call, [store, ..], number| match number {
            15 if call == "knowledge" => store.get(25..).and_then(|rest| reference::check(rest).err()).unwrap_or(15),
            _ => number,
        }),
    ];
    for (name, number) in wrong {
        is_noticed(name, &Fake { number: Some(number), ..Fake::default() });
    }
}

#[test]
fn an_engine_that_sets_a_value_on_a_refusal_is_noticed() {
    for call in ["winner", "learned", "coverage", "knowledge"] {
        is_noticed(call, &Fake { sets_on_refusal: Some(call), ..Fake::default() });
    }
}

#[test]
fn what_never_occurs_is_noticed() {
    let plan = Plan { inputs: 20, ..PLAN };
    assert!(run(&plan, &Fake::default()).unwrap_err().contains("never occurred"));
}
