//! An engine that takes a shorter way where it may not.

use inputs::{Batch, ItemId, Knowledge, Record, Store};

use crate::lenient;
use crate::reading::Found;
use crate::stand_in::Reference;
use crate::{calls, changing, reading, writing};

/// The elements of a clock vector.
pub type Elements = [(u32, u64)];

/// Shorter ways: each says whether the engine takes it, or what it gives then.
pub type Copies<'a> = &'a dyn Fn(&Knowledge) -> bool;
pub type Whole<'a> = &'a dyn Fn([&ItemId; 2]) -> bool;
pub type Changed<'a> = &'a dyn Fn(&Store, u64) -> Knowledge;
pub type Keeps<'a> = &'a dyn Fn(&Store, &Batch) -> bool;
pub type Same<'a> = &'a dyn Fn(&Elements, &Elements) -> bool;
pub type Contains<'a> = &'a dyn Fn(&Knowledge, &Record) -> bool;
pub type Covers<'a> = &'a dyn Fn([&Knowledge; 2], [&ItemId; 2]) -> bool;

/// It is right where no shorter way is given.
#[derive(Default)]
pub struct Hasty<'a> {
    /// Whether normalise copies a knowledge, and make for what is needed.
    pub copies: Option<Copies<'a>>,
    /// Whether make copies what the store knows for a span.
    pub whole: Option<Whole<'a>>,
    /// The knowledge of a store after a change at a tick.
    pub changed: Option<Changed<'a>>,
    /// Whether apply keeps what the store knows.
    pub keeps: Option<Keeps<'a>>,
    /// Whether two clock vectors are taken for the same.
    pub same: Option<Same<'a>>,
    /// Whether the versions of a record are taken for contained.
    pub contains: Option<Contains<'a>>,
    /// Whether the first of two knowledges covers the second in a span.
    pub covers: Option<Covers<'a>>,
}

type Written = Result<Vec<u8>, u32>;

/// What the reference writes.
fn right(call: impl FnOnce(&mut [u8]) -> Result<usize, u32>) -> Written {
    let mut out = vec![0; Batch::LONGEST];
    let length = call(&mut out)?;
    out.truncate(length);
    Ok(out)
}

fn give(result: Written, out: &mut [u8], written: &mut u64) -> u32 {
    match result {
        Ok(bytes) if bytes.len() > out.len() => 14,
        Ok(bytes) => {
            out[..bytes.len()].copy_from_slice(&bytes);
            *written = bytes.len() as u64;
            0
        }
        Err(number) => number,
    }
}

fn id(bytes: &[u8]) -> ItemId {
    bytes.try_into().expect("24 bytes")
}

impl Hasty<'_> {
    /// The normal form, where vectors that are taken for the same are one.
    fn joined(&self, normal: &[u8]) -> Vec<u8> {
        let Some(same) = self.same else { return normal.to_vec() };
        let mut knowledge = Knowledge::decoded(normal);
        let vectors = &knowledge.vectors;
        for (_, index) in &mut knowledge.ranges {
            let found = vectors.iter().position(|vector| same(vector, &vectors[*index as usize]));
            *index = found.map_or(*index, |found| found as u32);
        }
        knowledge.normalised().bytes()
    }

    /// Whether rules of validity hold, with the shorter ways in place of what they are for.
    fn opens(&self, rules: &[lenient::Rule], form: &str, knowledge: &Knowledge, records: &[Record]) -> bool {
        let replaced: Vec<&str> = match (self.same, self.contains) {
            (Some(_), _) => vec![form],
            (_, Some(_)) => vec!["change contained", "create contained"],
            _ => Vec::new(),
        };
        let others = rules.iter().all(|(name, holds)| *holds || replaced.contains(name));
        let vectors = &knowledge.vectors;
        let distinct = |same: Same| {
            let normal = knowledge.normal_rules().iter().all(|(name, holds)| *holds || *name == "distinct");
            normal && (0..vectors.len()).all(|k| !vectors[..k].iter().any(|vector| same(vector, &vectors[k])))
        };
        let contains = |contains: Contains| records.iter().all(|r| contains(knowledge, r));
        others && self.same.is_none_or(distinct) && self.contains.is_none_or(contains)
    }
}

impl writing::Engine for Hasty<'_> {
    fn normalise(&self, knowledge: &[u8], out: &mut [u8], written: &mut u64) -> u32 {
        let result = right(|out| reference::normalise(knowledge, out)).map(|normal| match self.copies {
            Some(copies) if copies(&Knowledge::decoded(knowledge)) => knowledge.to_vec(),
            _ => self.joined(&normal),
        });
        give(result, out, written)
    }

    fn merge(&self, [first, second]: [&[u8]; 2], out: &mut [u8], written: &mut u64) -> u32 {
        give(right(|out| reference::merge(first, second, out)).map(|merged| self.joined(&merged)), out, written)
    }

    fn project(&self, knowledge: &[u8], [from, to]: [&[u8]; 2], out: &mut [u8], written: &mut u64) -> u32 {
        give(right(|out| reference::project(knowledge, from, to, out)), out, written)
    }
}

impl calls::Engine for Hasty<'_> {
    fn contain(&self, knowledge: &[u8], item: &[u8], replica: &[u8], tick: u64, value: &mut u32) -> u32 {
        Reference.contain(knowledge, item, replica, tick, value)
    }

    fn lead(&self, knowledges: [&[u8]; 2], item: &[u8], replica: &[u8], value: &mut i64) -> u32 {
        Reference.lead(knowledges, item, replica, value)
    }

    fn cover(&self, knowledges: [&[u8]; 2], [from, to]: [&[u8]; 2], value: &mut u32) -> u32 {
        let number = Reference.cover(knowledges, [from, to], value);
        if let (0, Some(covers)) = (number, self.covers) {
            let [first, second] = &knowledges.map(Knowledge::decoded);
            *value = covers([first, second], [&id(from), &id(to)]).into();
        }
        number
    }
}

impl reading::Engine for Hasty<'_> {
    fn winner(&self, store: &[u8], batch: &[u8], item: &[u8], value: &mut Found) -> u32 {
        Reference.winner(store, batch, item, value)
    }

    fn learned(&self, batch: &[u8], value: &mut [u64; 2]) -> u32 {
        let opened = lenient::batch(batch);
        let opens = opened
            .is_some_and(|(batch, rules)| self.opens(&rules, "learned in normal form", &batch.learned, &batch.records));
        let number = |at: usize| u64::from(u32::from_be_bytes(batch[at..at + 4].try_into().expect("four bytes")));
        if opens {
            *value = [Batch::HEADER as u64 + number(49), number(53)];
        }
        if opens { 0 } else { 16 }
    }

    fn coverage(&self, store: &[u8], knowledge: &[u8], value: &mut [u64; 3]) -> u32 {
        Reference.coverage(store, knowledge, value)
    }

    fn knowledge(&self, store: &[u8], value: &mut [u64; 2]) -> u32 {
        let opened = lenient::store(store);
        let opens =
            opened.is_some_and(|(store, rules)| self.opens(&rules, "normal form", &store.knowledge, &store.records));
        if opens {
            *value = [25, u64::from(u32::from_be_bytes(store[17..21].try_into().expect("four bytes")))];
        }
        if opens { 0 } else { 15 }
    }

    fn walk(&self, table: &[u8], at: u64, length: &mut u64) -> u32 {
        Reference.walk(table, at, length)
    }
}

impl Hasty<'_> {
    /// The store after a change, with what it knows by the shorter way.
    fn after(&self, before: &[u8], after: Written) -> Written {
        let Some(changed) = self.changed else { return after };
        let (before, after) =
            (Store::opened(before).expect("it is valid"), Store::opened(&after?).expect("it is valid"));
        let tick = 1 + before.knowledge.largest_tick();
        let key = before.knowledge.replicas.contains(&before.own);
        let knowledge = if key { changed(&before, tick) } else { after.knowledge.clone() };
        Ok(Store { knowledge, ..after }.bytes())
    }
}

impl changing::Engine for Hasty<'_> {
    fn new_store(&self, own: &[u8], out: &mut [u8], written: &mut u64) -> u32 {
        Reference.new_store(own, out, written)
    }

    fn edit(&self, store: &[u8], item: &[u8], tag: &[u8], out: &mut [u8], written: &mut u64) -> u32 {
        give(self.after(store, right(|out| reference::edit(store, item, tag, out))), out, written)
    }

    fn delete(&self, store: &[u8], item: &[u8], out: &mut [u8], written: &mut u64) -> u32 {
        give(self.after(store, right(|out| reference::delete(store, item, out))), out, written)
    }

    fn make(&self, store: &[u8], knowledge: &[u8], [from, to]: [&[u8]; 2], out: &mut [u8], written: &mut u64) -> u32 {
        let result = right(|out| reference::make(store, knowledge, from, to, out)).map(|bytes| {
            let mut batch = Batch::opened(&bytes).expect("it is valid");
            let given = Knowledge::decoded(knowledge);
            if self.copies.is_some_and(|copies| copies(&given)) {
                batch.needed = given;
            }
            if self.whole.is_some_and(|whole| whole([&id(from), &id(to)])) {
                batch.learned = Store::opened(store).expect("it is valid").knowledge;
            }
            batch.bytes()
        });
        give(result, out, written)
    }

    fn apply(&self, store: &[u8], batch: &[u8], out: &mut [u8], written: &mut u64) -> u32 {
        let result = right(|out| reference::apply(store, batch, out)).map(|bytes| {
            let (before, batch) =
                (Store::opened(store).expect("it is valid"), Batch::opened(batch).expect("it is valid"));
            match self.keeps {
                Some(keeps) if keeps(&before, &batch) => {
                    let after = Store::opened(&bytes).expect("it is valid");
                    Store { knowledge: before.knowledge, ..after }.bytes()
                }
                _ => bytes,
            }
        });
        give(result, out, written)
    }
}
