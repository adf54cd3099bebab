//! Comparing engine and reference at the borders of the engine's shorter ways, and counting the calls on each side.

use std::collections::BTreeMap;
use std::fmt;

use inputs::{AnyCall, Batch, Border, CallInput, Changings, End, Lookups, Plan, Readings, Writings};

use crate::row::{self, Compare, Compared};
use crate::tally::Outcome;
use crate::{calls, changing, reading, writing};

/// An engine that has the calls of all these rows.
pub trait Engine: calls::Engine + writing::Engine + reading::Engine + changing::Engine {}

impl<E: calls::Engine + writing::Engine + reading::Engine + changing::Engine> Engine for E {}

/// The calls on one side, and those of them that ended as most there do.
#[derive(Clone, Copy, Debug, Default)]
struct Count {
    calls: usize,
    as_most: usize,
}

/// How many calls there were on each side of a border.
pub struct Sides {
    border: Border,
    counts: BTreeMap<&'static str, Count>,
}

/// Compares the engine with the reference on all calls of the plan at a border. The error says where they first differ, or which
/// side had too few calls.
pub fn run(border: Border, plan: &Plan, engine: &impl Engine) -> Result<Sides, String> {
    let mut sides = Sides { border, counts: BTreeMap::new() };
    let mut longest = vec![0; Batch::LONGEST];
    border.try_for_each(plan, |input| {
        let (_, outcome) = compare(plan, &input, engine, &mut longest)?;
        sides.add(input.family, outcome)
    })?;
    sides.complete(plan)
}

fn compare(plan: &Plan, input: &CallInput<AnyCall>, engine: &impl Engine, longest: &mut [u8]) -> Compared {
    let (place, family) = (input.place, input.family);
    match input.call {
        AnyCall::Lookup(call) => one::<Lookups, _>(plan, CallInput { place, family, call }, engine, longest),
        AnyCall::Writing(call) => one::<Writings, _>(plan, CallInput { place, family, call }, engine, longest),
        AnyCall::Reading(call) => one::<Readings, _>(plan, CallInput { place, family, call }, engine, longest),
        AnyCall::Changing(call) => one::<Changings, _>(plan, CallInput { place, family, call }, engine, longest),
    }
}

fn one<R: Compare<E>, E>(plan: &Plan, input: CallInput<R::Call<'_>>, engine: &E, longest: &mut [u8]) -> Compared {
    R::compare(&input, engine, longest).map_err(|difference| row::describe::<R>(plan, &input, &difference))
}

/// Whether a call ended so.
fn is(outcome: Outcome, end: End) -> bool {
    match (outcome, end) {
        (Outcome::Answer(_) | Outcome::Other(reference::refusal::BUFFER), End::Answer) => true,
        (Outcome::Answer(answer), End::Says(word)) => answer == word,
        (Outcome::Other(number), End::Refused(meant)) => number == meant,
        _ => false,
    }
}

impl Sides {
    fn add(&mut self, name: &'static str, outcome: Outcome) -> Result<(), String> {
        let side = self.border.sides.iter().find(|side| side.name == name);
        let side = side.ok_or_else(|| format!("{}: no side is named {name:?}", self.border.name))?;
        let count = self.counts.entry(name).or_default();
        count.calls += 1;
        count.as_most += usize::from(is(outcome, side.end));
        Ok(())
    }

    /// The counts, if at least one call in a hundred was on each side and three quarters of them ended as most there do.
    fn complete(self, plan: &Plan) -> Result<Self, String> {
        for side in self.border.sides {
            let Count { calls, as_most } = self.counts.get(side.name).copied().unwrap_or_default();
            if 100 * calls < plan.inputs {
                return Err(format!("too few calls: {}; {self}", side.name));
            }
            if 4 * as_most < 3 * calls {
                return Err(format!("too few calls that end with {:?}: {}; {self}", side.end, side.name));
            }
        }
        Ok(self)
    }

    pub fn calls(&self) -> usize {
        self.counts.values().map(|count| count.calls).sum()
    }
}

impl fmt::Display for Sides {
    fn fmt(&self, f: &mut fmt::Formatter) -> fmt::Result {
        write!(f, "{}: {} calls", self.border.name, self.calls())?;
        let mut before = ": ";
        for side in self.border.sides {
            let Count { calls, as_most } = self.counts.get(side.name).copied().unwrap_or_default();
            write!(f, "{before}{} × {calls} ({as_most})", side.name)?;
            before = ", ";
        }
        Ok(())
    }
}

#[cfg(test)]
mod hasty;
#[cfg(test)]
mod tests;
