//! The limits of a result that calls of a list came to: 11 for 16 replicas, 12 for 64 ranges, 13 for 256 records.

use std::collections::{BTreeMap, BTreeSet};
use std::fmt;

use crate::tally::Outcome;

/// A number, and the call that is refused with it.
type Limit = (u32, &'static str);

/// All that lists can come to.
const ALL: [Limit; 7] =
    [(11, "edit"), (11, "delete"), (11, "apply"), (12, "make"), (12, "apply"), (13, "edit"), (13, "apply")];

/// So many lists in a hundred must come to each.
const PERCENT: usize = 3;

/// What one list came to. A limit counts as soon as a later call on the same replica writes its store.
#[derive(Debug, Default)]
pub struct Limits {
    refused: BTreeSet<(usize, Limit)>,
    passed: BTreeSet<Limit>,
}

impl Limits {
    /// A call on a replica, and how it ended.
    pub fn add(&mut self, replica: usize, call: &'static str, outcome: Outcome) {
        match outcome {
            Outcome::Other(number @ 11..=13) => {
                self.refused.insert((replica, (number, call)));
            }
            Outcome::Answer(_) if call != "make" => {
                let here = self.refused.iter().filter(|(other, _)| *other == replica);
                self.passed.extend(here.map(|(_, limit)| *limit));
            }
            _ => {}
        }
    }
}

/// How many lists came to each limit, and to each number by any call.
#[derive(Debug, Default)]
pub struct Reached {
    limits: BTreeMap<Limit, usize>,
    numbers: BTreeMap<u32, usize>,
}

impl Reached {
    pub fn add(&mut self, list: &Limits) {
        for limit in &list.passed {
            *self.limits.entry(*limit).or_default() += 1;
        }
        let numbers: BTreeSet<u32> = list.passed.iter().map(|(number, _)| *number).collect();
        for number in numbers {
            *self.numbers.entry(number).or_default() += 1;
        }
    }

    fn count(&self, limit: Limit) -> usize {
        self.limits.get(&limit).copied().unwrap_or(0)
    }

    /// The error, where too few of so many lists came to a limit.
    pub fn enough(&self, lists: usize) -> Result<(), String> {
        let least = (PERCENT * lists).div_ceil(100);
        match ALL.into_iter().find(|limit| self.count(*limit) < least) {
            None => Ok(()),
            Some(limit @ (number, call)) => {
                let count = self.count(limit);
                Err(format!(
                    "too few: {call} refused with {number} in {count} lists of {lists}, not in {least}; {self}"
                ))
            }
        }
    }
}

impl fmt::Display for Reached {
    fn fmt(&self, f: &mut fmt::Formatter) -> fmt::Result {
        write!(f, "refused at a limit and then going on:")?;
        for number in 11..=13 {
            let comma = if number == 11 { "" } else { "," };
            write!(f, "{comma} {number} in {} lists", self.numbers.get(&number).unwrap_or(&0))?;
            let mut before = " (";
            for limit in ALL.into_iter().filter(|limit| limit.0 == number) {
                write!(f, "{before}{} in {}", limit.1, self.count(limit))?;
                before = ", ";
            }
            write!(f, ")")?;
        }
        Ok(())
    }
}

#[cfg(test)]
mod tests {
    use super::*;

    const WRITTEN: Outcome = Outcome::Answer("written");

    /// What a list of calls comes to.
    fn reached(calls: &[(usize, &'static str, Outcome)]) -> Vec<Limit> {
        let mut limits = Limits::default();
        calls.iter().for_each(|(replica, call, outcome)| limits.add(*replica, call, *outcome));
        limits.passed.into_iter().collect()
    }

    #[test]
    fn a_limit_counts_when_its_replica_goes_on() {
        let refused = (3, "edit", Outcome::Other(13));
        assert_eq!(reached(&[(3, "edit", WRITTEN), refused]), []);
        assert_eq!(reached(&[refused, (2, "edit", WRITTEN), (3, "make", WRITTEN)]), []);
        assert_eq!(reached(&[refused, (3, "apply", Outcome::Other(14))]), []);
        assert_eq!(reached(&[refused, (3, "delete", WRITTEN)]), [(13, "edit")]);
        assert_eq!(reached(&[(3, "apply", Outcome::Other(14)), (3, "apply", WRITTEN)]), []);
    }

    /// As many lists that come to all limits but one, and so many that come to that one.
    fn lists(all: usize, limit: Limit, count: usize) -> Reached {
        let mut reached = Reached::default();
        for place in 0..all {
            let passed = ALL.into_iter().filter(|other| *other != limit || place < count).collect();
            reached.add(&Limits { passed, ..Limits::default() });
        }
        reached
    }

    #[test]
    fn three_lists_in_a_hundred_must_come_to_each() {
        for limit in ALL {
            for (all, bar) in [(10_000, 300), (2_000, 60), (2_033, 61)] {
                assert_eq!(lists(all, limit, bar).enough(all), Ok(()));
                let error = lists(all, limit, bar - 1).enough(all).unwrap_err();
                assert!(error.starts_with(&format!("too few: {} refused with {} in ", limit.1, limit.0)), "{error}");
            }
        }
    }

    #[test]
    fn a_list_counts_once_for_a_number() {
        let text = lists(5, (13, "edit"), 2).to_string();
        assert!(text.ends_with(", 13 in 5 lists (edit in 2, apply in 5)"), "{text}");
        assert!(text.contains(": 11 in 5 lists (edit in 5, delete in 5, apply in 5), "), "{text}");
    }
}
