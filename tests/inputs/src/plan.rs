//! How many inputs a run has, and which.

use std::env;
use std::sync::OnceLock;

use crate::families;
use crate::rows::Row;
use crate::splitmix::SplitMix64;

/// One input of a run.
#[derive(Clone, Copy, Debug)]
pub struct Input<'a> {
    /// Its place in the run, from 0.
    pub place: usize,
    pub family: &'static str,
    pub bytes: &'a [u8],
}

/// One call of a run.
#[derive(Clone, Copy, Debug)]
pub struct CallInput<C> {
    /// Its place in the run, from 0.
    pub place: usize,
    pub family: &'static str,
    pub call: C,
}

/// A run: the same plan always gives the same inputs.
#[derive(Clone, Copy, Debug)]
pub struct Plan {
    pub seed: u64,
    pub inputs: usize,
}

impl Plan {
    /// The usual run, which has all fixed inputs.
    pub const USUAL: Self = Self { seed: 1_792_024, inputs: 500_000 };

    /// As many inputs as `SYNC_INPUTS` says, from the seed that `SYNC_SEED` says; where one is not set, as in the
    /// usual run.
    pub fn from_environment() -> Self {
        Self {
            seed: number_from_environment("SYNC_SEED").unwrap_or(Self::USUAL.seed),
            inputs: number_from_environment("SYNC_INPUTS").map_or(Self::USUAL.inputs, |inputs| inputs as usize),
        }
    }

    /// The run of calls on stores and batches, which take longer: two fifths as many.
    pub fn on_stores(self) -> Self {
        Self { inputs: self.inputs / 5 * 2, ..self }
    }

    /// The run of calls at one border: as many as `SYNC_BORDERS` says, 100,000 where it is not set.
    pub fn at_a_border(self) -> Self {
        Self { inputs: number_from_environment("SYNC_BORDERS").map_or(100_000, |inputs| inputs as usize), ..self }
    }

    /// The run of compares: two fifths as many.
    pub fn of_pairs(self) -> Self {
        Self { inputs: self.inputs / 5 * 2, ..self }
    }

    /// Hands out the inputs in turn, up to the first error.
    ///
    /// The fixed ones come first. If they were more than half of the run, it has only some of them, which the seed
    /// chooses. Random ones fill it up.
    pub fn try_for_each(&self, mut visit: impl FnMut(Input) -> Result<(), String>) -> Result<(), String> {
        let mut places = Places::new(self, fixed_inputs());
        families::fixed(&mut |family, bytes| match places.next_fixed() {
            Some(place) => visit(Input { place, family, bytes }),
            None => Ok(()),
        })?;
        families::random(self.seed, places.left(), &mut |family, bytes| {
            visit(Input { place: places.next(), family, bytes })
        })
    }

    /// Hands out the calls of a row in the same manner, as many as the plan has inputs.
    pub fn try_for_each_call<R: Row>(
        &self,
        mut visit: impl FnMut(CallInput<R::Call<'_>>) -> Result<(), String>,
    ) -> Result<(), String> {
        let mut places = Places::new(self, R::fixed_calls());
        R::fixed(&mut |family, call| match places.next_fixed() {
            Some(place) => visit(CallInput { place, family, call }),
            None => Ok(()),
        })?;
        R::random(self.seed, places.left(), &mut |family, call| visit(CallInput { place: places.next(), family, call }))
    }
}

/// The number that an environment variable says, if it is set.
pub fn number_from_environment(name: &str) -> Option<u64> {
    let value = env::var(name).ok()?;
    Some(value.parse().unwrap_or_else(|_| panic!("{name} must be a number, not {value:?}")))
}

/// Gives the inputs of a run their places, and chooses among the fixed ones.
struct Places {
    next: usize,
    all: usize,
    choice: SplitMix64,
    /// One in so many of the fixed ones is in the run.
    one_in: usize,
}

impl Places {
    fn new(plan: &Plan, fixed: usize) -> Self {
        let one_in = fixed.div_ceil((plan.inputs / 2).max(1));
        Self { next: 0, all: plan.inputs, choice: SplitMix64::new(plan.seed), one_in }
    }

    /// The place of the next fixed input, if it is in the run.
    fn next_fixed(&mut self) -> Option<usize> {
        let chosen = self.choice.once_in(self.one_in) && self.next < self.all;
        chosen.then(|| self.next())
    }

    fn next(&mut self) -> usize {
        self.next += 1;
        self.next - 1
    }

    /// How many places are left.
    fn left(&self) -> usize {
        self.all - self.next
    }
}

/// How many inputs are the same in every run.
fn fixed_inputs() -> usize {
    static COUNT: OnceLock<usize> = OnceLock::new();
    *COUNT.get_or_init(|| {
        let mut count = 0;
        let counted = families::fixed(&mut |_, _| {
            count += 1;
            Ok(())
        });
        counted.map(|()| count).expect("counting does not fail")
    })
}

#[cfg(test)]
mod tests {
    use std::hash::{DefaultHasher, Hash, Hasher};

    use super::*;
    use crate::rows::{Changings, Comparings, Lookups, Readings, Writings};

    #[test]
    fn the_usual_run_has_all_fixed_inputs() {
        assert!(2 * fixed_inputs() <= Plan::USUAL.inputs);
        assert!(2 * Lookups::fixed_calls() <= Plan::USUAL.inputs);
        assert!(2 * Writings::fixed_calls() <= Plan::USUAL.inputs);
        assert!(2 * Comparings::fixed_calls() <= Plan::USUAL.of_pairs().inputs);
        assert!(2 * Readings::fixed_calls() <= Plan::USUAL.on_stores().inputs);
        assert!(2 * Changings::fixed_calls() <= Plan::USUAL.on_stores().inputs);
    }

    #[test]
    fn a_run_of_twice_as_many_has_all_fixed_calls_and_one_of_fewer_has_not() {
        for (inputs, all) in [(2 * Lookups::fixed_calls(), true), (2 * Lookups::fixed_calls() - 2, false)] {
            let mut count = 0;
            let plan = Plan { seed: 5, inputs };
            plan.try_for_each_call::<Lookups>(|input| {
                count += usize::from(!input.family.starts_with("random"));
                Ok(())
            })
            .unwrap();
            assert_eq!(count == Lookups::fixed_calls(), all);
        }
    }

    #[test]
    fn a_run_has_as_many_inputs_as_planned_and_is_the_same_again() {
        for inputs in [0, 1, 100, 20_000] {
            let run = || {
                let mut sums = Vec::new();
                let plan = Plan { seed: 5, inputs };
                plan.try_for_each(|input| {
                    assert_eq!(input.place, sums.len());
                    sums.push(input.bytes.iter().fold(0u64, |sum, byte| sum.wrapping_mul(31) + u64::from(*byte)));
                    Ok(())
                })
                .unwrap();
                sums
            };
            let sums = run();
            assert_eq!(sums.len(), inputs);
            assert_eq!(sums, run());
        }
    }

    #[test]
    fn a_run_has_as_many_calls_as_planned_and_is_the_same_again() {
        for inputs in [0, 1, 100, 10_000] {
            assert_same_again::<Lookups>(inputs);
            assert_same_again::<Comparings>(inputs);
            assert_same_again::<Writings>(inputs);
            assert_same_again::<Readings>(inputs);
            assert_same_again::<Changings>(inputs);
        }
    }

    fn assert_same_again<R: Row>(inputs: usize) {
        let run = || {
            let mut calls = Vec::new();
            let plan = Plan { seed: 5, inputs };
            plan.try_for_each_call::<R>(|input| {
                assert_eq!(input.place, calls.len());
                let mut hasher = DefaultHasher::new();
                input.call.hash(&mut hasher);
                calls.push(hasher.finish());
                Ok(())
            })
            .unwrap();
            calls
        };
        let hashes = run();
        assert_eq!(hashes.len(), inputs);
        assert_eq!(hashes, run());
    }
}
