//! What the calls that write owe each other and the calls that look something up, whatever the reference says.

use std::collections::BTreeMap;
use std::fmt;

use inputs::{FIRST_ITEM, ItemId, Knowledge, LAST_ITEM, LONGEST, Plan, SplitMix64, Three, next_item};

use crate::one;
use crate::{calls, writing};

/// One in so many inputs of a plan is a round, in which each law is tried.
const INPUTS_OF_A_ROUND: usize = 20;

/// How often each law was tried with nothing refused.
#[derive(Debug, Default)]
pub struct Tally {
    rounds: usize,
    counts: BTreeMap<&'static str, usize>,
}

impl fmt::Display for Tally {
    fn fmt(&self, f: &mut fmt::Formatter) -> fmt::Result {
        write!(f, "{} rounds", self.rounds)?;
        for (law, count) in &self.counts {
            write!(f, "; {law} × {count}")?;
        }
        Ok(())
    }
}

/// Tries the laws on random knowledges. The error says which law does not hold on what, or which law was tried in too few rounds.
pub fn run(plan: &Plan, engine: &(impl writing::Engine + calls::Engine)) -> Result<Tally, String> {
    let mut tally = Tally::default();
    let random = &mut SplitMix64::new(plan.seed);
    for _ in 0..plan.inputs / INPUTS_OF_A_ROUND {
        tally.rounds += 1;
        let Three { knowledges, items } = Three::new(random);
        let [a, b, c] = knowledges.map(|knowledge| knowledge.bytes());
        let mut round = Round { engine, counts: &mut tally.counts };
        round.laws([&a, &b, &c], &items).map_err(|law| describe(plan, &law, [&a, &b, &c], &items))?;
    }
    for law in LAWS {
        let count = tally.counts.get(law).copied().unwrap_or(0);
        if count <= tally.rounds / 4 {
            return Err(format!("tried too seldom: {law}; {tally}"));
        }
    }
    Ok(tally)
}

const NORMAL: &str = "normalised twice as once";
const SAME: &str = "the normal form and the knowledge cover each other";
const EITHER: &str = "merged in either order";
const GROUPED: &str = "three merged in any order and grouping";
const ITSELF: &str = "merged with itself or with nothing, normalised";
const BOTH: &str = "merged covers both";
const ALL: &str = "all of it projected, normalised";
const AGAIN: &str = "a part projected again";
const PART: &str = "a part of a part";
const INSIDE: &str = "a part and the knowledge cover each other inside, and it knows nothing outside";
const PARTS: &str = "two parts merged";
const THROUGH: &str = "the part of two merged, the parts of two merged";

const LAWS: [&str; 12] = [NORMAL, SAME, EITHER, GROUPED, ITSELF, BOTH, ALL, AGAIN, PART, INSIDE, PARTS, THROUGH];

/// The bytes of a result, or the number of its refusal.
type Written = Result<Vec<u8>, u32>;

struct Round<'a, E> {
    engine: &'a E,
    counts: &'a mut BTreeMap<&'static str, usize>,
}

impl<E: writing::Engine + calls::Engine> Round<'_, E> {
    fn laws(&mut self, knowledges: [&[u8]; 3], items: &[ItemId; 4]) -> Result<(), String> {
        self.normalise(knowledges[0])?;
        self.merge(knowledges)?;
        self.project(knowledges[0], items)?;
        self.project_merged(knowledges, items)
    }

    fn normalise(&mut self, a: &[u8]) -> Result<(), String> {
        let Ok(normal) = self.normalised(a) else { return Ok(()) };
        self.holds(SAME, self.covers(&normal, a, ALL_ITEMS) && self.covers(a, &normal, ALL_ITEMS))?;
        self.same(NORMAL, self.normalised(&normal), Ok(normal))
    }

    fn merge(&mut self, [a, b, c]: [&[u8]; 3]) -> Result<(), String> {
        self.same(EITHER, self.merged(a, b), self.merged(b, a))?;

        let mut all: Vec<Vec<u8>> = Vec::new();
        for [x, y, z] in [[a, b, c], [b, c, a], [c, a, b], [a, c, b]] {
            let two = self.merged(x, y);
            let three = two.clone().and_then(|two| self.merged(&two, z));
            all.extend(three.into_iter().chain(two.and_then(|two| self.merged(z, &two))));
        }
        if all.len() > 1 {
            self.holds(GROUPED, all.iter().all(|other| *other == all[0]))?;
        }

        let nothing = Knowledge::smallest().bytes();
        for (first, second) in [(a, a), (a, &nothing), (&nothing, a)] {
            self.same(ITSELF, self.merged(first, second), self.normalised(a))?;
        }
        let Ok(merged) = self.merged(a, b) else { return Ok(()) };
        self.holds(BOTH, [a, b].iter().all(|one| self.covers(&merged, one, ALL_ITEMS)))
    }

    fn project(&mut self, a: &[u8], items: &[ItemId; 4]) -> Result<(), String> {
        let [outer, inner] = [[&items[0], &items[3]], [&items[1], &items[2]]];
        self.same(ALL, self.projected(a, ALL_ITEMS), self.normalised(a))?;

        let Ok(part) = self.projected(a, outer) else { return Ok(()) };
        for span in [outer, ALL_ITEMS] {
            self.same(AGAIN, self.projected(&part, span), Ok(part.clone()))?;
        }
        self.same(PART, self.projected(&part, inner), self.projected(a, inner))?;

        let nothing = &Knowledge::smallest().bytes()[..];
        let inside = self.covers(&part, a, outer) && self.covers(a, &part, outer);
        let before = inputs::item_before(outer[0]).is_none_or(|last| self.covers(nothing, &part, [&FIRST_ITEM, &last]));
        let behind = next_item(outer[1]).is_none_or(|first| self.covers(nothing, &part, [&first, &LAST_ITEM]));
        self.holds(INSIDE, inside && before && behind)?;

        let Some(second_half) = next_item(&items[1]) else { return Ok(()) };
        let halves = [self.projected(a, [outer[0], &items[1]]), self.projected(a, [&second_half, outer[1]])];
        if let [Ok(first), Ok(second)] = halves {
            self.same(PARTS, self.merged(&first, &second), Ok(part))?;
        }
        Ok(())
    }

    fn project_merged(&mut self, [a, b, _]: [&[u8]; 3], items: &[ItemId; 4]) -> Result<(), String> {
        let span = [&items[0], &items[3]];
        let part_of_merged = self.merged(a, b).and_then(|merged| self.projected(&merged, span));
        let parts_merged = self.projected(a, span).and_then(|first| self.merged(&first, &self.projected(b, span)?));
        // What goes before can be refused on one side only.
        if part_of_merged.is_err() || parts_merged.is_err() {
            return Ok(());
        }
        self.same(THROUGH, part_of_merged, parts_merged)
    }

    /// The law is broken where the two are not the same, and counts as tried where they are not refused.
    fn same(&mut self, law: &'static str, one: Written, other: Written) -> Result<(), String> {
        if one.is_err() && one == other {
            return Ok(());
        }
        self.holds(law, one == other)
    }

    fn holds(&mut self, law: &'static str, held: bool) -> Result<(), String> {
        if !held {
            return Err(law.to_owned());
        }
        *self.counts.entry(law).or_default() += 1;
        Ok(())
    }

    fn normalised(&self, knowledge: &[u8]) -> Written {
        written(|out, length| self.engine.normalise(knowledge, out, length))
    }

    fn merged(&self, first: &[u8], second: &[u8]) -> Written {
        written(|out, length| self.engine.merge([first, second], out, length))
    }

    fn projected(&self, knowledge: &[u8], span: [&ItemId; 2]) -> Written {
        written(|out, length| self.engine.project(knowledge, span.map(|item| &item[..]), out, length))
    }

    fn covers(&self, first: &[u8], second: &[u8], span: [&ItemId; 2]) -> bool {
        let mut covers = 0;
        self.engine.cover([first, second], span.map(|item| &item[..]), &mut covers) == 0 && covers == 1
    }
}

const ALL_ITEMS: [&ItemId; 2] = [&FIRST_ITEM, &LAST_ITEM];

fn written(call: impl FnOnce(&mut [u8], &mut u64) -> u32) -> Written {
    let mut out = vec![0; LONGEST];
    let mut length = 0;
    match call(&mut out, &mut length) {
        0 => {
            out.truncate(length as usize);
            Ok(out)
        }
        number => Err(number),
    }
}

fn describe(plan: &Plan, law: &str, knowledges: [&[u8]; 3], items: &[ItemId; 4]) -> String {
    let mut text = format!("does not hold: {law}\n  seed {}", plan.seed);
    for argument in knowledges.into_iter().chain(items.iter().map(|item| &item[..])) {
        text += &format!("\n  {}", one::hex(argument));
    }
    text
}

#[cfg(test)]
mod tests {
    use inputs::Plan;

    use super::run;
    use crate::writing::tests::{Fake, other_merges, other_normal_forms, other_parts};

    const PLAN: Plan = Plan { inputs: 20_000, ..Plan::USUAL };

    #[test]
    fn a_right_engine_keeps_them() {
        assert_eq!(run(&PLAN, &Fake::default()).unwrap().rounds, 1000);
    }

    fn is_noticed(name: &str, fake: &Fake) {
        let error = run(&PLAN, fake).expect_err(name);
        assert!(error.starts_with("does not hold: "), "{name}: {error}");
    }

    #[test]
    fn an_engine_that_breaks_them_is_noticed() {
        for (name, normalise) in other_normal_forms() {
            is_noticed(name, &Fake { normalise, ..Fake::default() });
        }
        for (name, merge) in other_merges() {
            is_noticed(name, &Fake { merge, ..Fake::default() });
        }
        for (name, project) in other_parts() {
            is_noticed(name, &Fake { project, ..Fake::default() });
        }
    }

    #[test]
    fn an_engine_that_refuses_too_much_is_noticed() {
        let fake = Fake { number: |_, _, number| if number == 0 { 12 } else { number }, ..Fake::default() };
        assert!(run(&PLAN, &fake).unwrap_err().starts_with("tried too seldom: "));
    }
}
