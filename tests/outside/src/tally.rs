//! How often each call ended in each way.

use std::collections::{BTreeMap, BTreeSet};
use std::fmt;

/// How a call ended.
#[derive(Clone, Copy, Debug, PartialEq, Eq, PartialOrd, Ord)]
pub enum Outcome {
    Answer(&'static str),
    /// The first knowledge is refused with this number.
    First(u32),
    /// The second knowledge is refused with this number.
    Second(u32),
    /// The ids are refused, with 17.
    Ids,
    /// Something else is refused with this number: the store, the batch, the result.
    Other(u32),
}

impl fmt::Display for Outcome {
    fn fmt(&self, f: &mut fmt::Formatter) -> fmt::Result {
        match self {
            Self::Answer(answer) => write!(f, "{answer}"),
            Self::First(number) => write!(f, "first {number}"),
            Self::Second(number) => write!(f, "second {number}"),
            Self::Ids => write!(f, "17"),
            Self::Other(number) => write!(f, "{number}"),
        }
    }
}

impl Outcome {
    /// How a call ended that has this answer; a number from 1 to 10 is that of the first knowledge, if it has a fault.
    pub fn of(answer: Result<&'static str, u32>, first: &[u8]) -> Self {
        match answer {
            Ok(answer) => Self::Answer(answer),
            Err(reference::refusal::IDS) => Self::Ids,
            Err(number @ 11..) => Self::Other(number),
            Err(number) if reference::check(first).is_err() => Self::First(number),
            Err(number) => Self::Second(number),
        }
    }
}

/// The ways in which a call can end. Each knowledge, of at most two, can be refused with each number from 1 to 10.
pub struct Ends {
    pub call: &'static str,
    pub answers: &'static [&'static str],
    pub knowledges: usize,
    pub ids: bool,
    /// The numbers of stores, batches and its result.
    pub others: &'static [u32],
}

impl Ends {
    fn outcomes(&self) -> impl Iterator<Item = (&'static str, Outcome)> {
        let answers = self.answers.iter().map(|answer| Outcome::Answer(answer));
        let first = (1..=10).filter(|_| self.knowledges > 0).map(Outcome::First);
        let second = (1..=10).filter(|_| self.knowledges == 2).map(Outcome::Second);
        let ids = self.ids.then_some(Outcome::Ids);
        let others = self.others.iter().map(|number| Outcome::Other(*number));
        answers.chain(first).chain(second).chain(ids).chain(others).map(|outcome| (self.call, outcome))
    }
}

#[derive(Clone, Debug, Default, PartialEq, Eq)]
pub struct Tally {
    counts: BTreeMap<(&'static str, Outcome), u64>,
}

impl Tally {
    pub fn add(&mut self, call: &'static str, outcome: Outcome) {
        *self.counts.entry((call, outcome)).or_default() += 1;
    }

    pub fn calls(&self) -> u64 {
        self.counts.values().sum()
    }

    /// How often a call gave an answer.
    pub fn count(&self, call: &'static str, answer: &'static str) -> u64 {
        self.counts.get(&(call, Outcome::Answer(answer))).copied().unwrap_or(0)
    }

    /// The tally, if each call ended in all the ways that it can end in and in no other.
    pub fn complete(self, calls: &[Ends]) -> Result<Self, String> {
        let can: BTreeSet<_> = calls.iter().flat_map(Ends::outcomes).collect();
        let names = |ways: &[&(&str, Outcome)]| {
            ways.iter().map(|(call, outcome)| format!("{call}: {outcome}")).collect::<Vec<_>>().join(", ")
        };
        let missing: Vec<_> = can.iter().filter(|way| !self.counts.contains_key(way)).collect();
        let others: Vec<_> = self.counts.keys().filter(|way| !can.contains(way)).collect();
        if !missing.is_empty() {
            return Err(format!("never occurred: {}; {self}", names(&missing)));
        }
        if !others.is_empty() {
            return Err(format!("occurred and cannot: {}; {self}", names(&others)));
        }
        Ok(self)
    }
}

impl fmt::Display for Tally {
    fn fmt(&self, f: &mut fmt::Formatter) -> fmt::Result {
        let mut before = "";
        for ((call, outcome), count) in &self.counts {
            let start = match before {
                "" => format!("{call}: "),
                _ if before == *call => ", ".to_owned(),
                _ => format!("; {call}: "),
            };
            write!(f, "{start}{outcome} × {count}")?;
            before = call;
        }
        Ok(())
    }
}

#[cfg(test)]
mod tests {
    use super::*;

    const MERGE: Ends = Ends { call: "merge", answers: &["written"], knowledges: 2, ids: false, others: &[11, 12, 14] };

    fn all() -> Tally {
        let mut tally = Tally::default();
        MERGE.outcomes().for_each(|(call, outcome)| tally.add(call, outcome));
        tally
    }

    #[test]
    fn each_way_must_have_occurred() {
        assert_eq!(all().calls(), 24);
        assert!(all().complete(&[MERGE]).is_ok());
        for way in MERGE.outcomes() {
            let mut tally = all();
            tally.counts.remove(&way);
            assert!(tally.complete(&[MERGE]).unwrap_err().starts_with(&format!("never occurred: merge: {};", way.1)));
        }
    }

    #[test]
    fn no_other_way_may_have_occurred() {
        for (call, outcome) in [("merge", Outcome::Ids), ("normalise", Outcome::Other(12))] {
            let mut tally = all();
            tally.add(call, outcome);
            assert!(tally.complete(&[MERGE]).unwrap_err().starts_with("occurred and cannot: "));
        }
    }
}
