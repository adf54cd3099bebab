//! Comparing the check of the engine with that of the reference.

use std::fmt;

use inputs::{Input, Plan};

use crate::one;

/// How often each number was given, 0 for acceptance.
#[derive(Clone, Copy, Debug, Default, PartialEq, Eq)]
pub struct Tally {
    counts: [u64; 11],
}

impl Tally {
    fn add(&mut self, number: u32) {
        self.counts[number as usize] += 1;
    }

    pub fn inputs(&self) -> u64 {
        self.counts.iter().sum()
    }

    /// The numbers that were never given.
    pub fn missing(&self) -> Vec<usize> {
        (0..self.counts.len()).filter(|number| self.counts[*number] == 0).collect()
    }
}

impl fmt::Display for Tally {
    fn fmt(&self, f: &mut fmt::Formatter) -> fmt::Result {
        write!(f, "accepted {}", self.counts[0])?;
        for (number, count) in self.counts.iter().enumerate().skip(1) {
            write!(f, ", {number}: {count}")?;
        }
        Ok(())
    }
}

/// Compares the engine with the reference on all inputs of the plan. The error says where they first differ, or which
/// number never occurred.
pub fn run(plan: &Plan, engine: impl Fn(&[u8], &mut [u64; 4]) -> u32) -> Result<Tally, String> {
    let mut tally = Tally::default();
    plan.try_for_each(|input| {
        let number = compare(&input, &engine).map_err(|difference| describe(plan, &input, &difference))?;
        tally.add(number);
        Ok(())
    })?;
    match tally.missing()[..] {
        [] => Ok(tally),
        ref missing => Err(format!("never given (0 is acceptance): {missing:?}; {tally}")),
    }
}

/// Compares the two on one input and gives the number that they agree on.
fn compare(input: &Input, engine: &impl Fn(&[u8], &mut [u64; 4]) -> u32) -> Result<u32, String> {
    let answer = reference::check(input.bytes).map(|sizes| [sizes.r, sizes.v, sizes.e, sizes.g]);
    one::compare(input.place, [input.bytes], answer, |[bytes], sizes| engine(bytes, sizes))?;
    Ok(answer.err().unwrap_or(0))
}

fn describe(plan: &Plan, input: &Input, difference: &str) -> String {
    format!(
        "{difference}\n  seed {}, input {} of {} ({}), {}",
        plan.seed,
        input.place,
        plan.inputs,
        input.family,
        one::hex(input.bytes)
    )
}

#[cfg(test)]
mod tests {
    use super::*;

    const PLAN: Plan = Plan { inputs: 20_000, ..Plan::USUAL };

    fn right(bytes: &[u8], sizes: &mut [u64; 4]) -> u32 {
        match reference::check(bytes) {
            Ok(found) => {
                *sizes = [found.r, found.v, found.e, found.g];
                0
            }
            Err(number) => number,
        }
    }

    #[test]
    fn a_right_engine_passes() {
        let tally = run(&PLAN, right).unwrap();
        assert_eq!(tally.inputs(), 20_000);
    }

    #[test]
    fn an_engine_that_gives_a_wrong_number_is_noticed() {
        for wrong in 0..=10 {
            let engine = |bytes: &[u8], sizes: &mut [u64; 4]| match right(bytes, sizes) {
                number if number == wrong => 11,
                number => number,
            };
            assert!(run(&PLAN, engine).unwrap_err().contains("engine refuses with 11"));
        }
    }

    #[test]
    fn an_engine_that_writes_sizes_on_a_refusal_is_noticed() {
        for place in 0..4 {
            for wrong in 1..=10 {
                let engine = |bytes: &[u8], sizes: &mut [u64; 4]| {
                    let number = right(bytes, sizes);
                    if number == wrong {
                        sizes[place] = 0;
                    }
                    number
                };
                assert!(run(&PLAN, engine).unwrap_err().contains("value untouched"));
            }
        }
    }

    #[test]
    fn an_engine_that_writes_wrong_sizes_is_noticed() {
        for place in 0..4 {
            let engine = |bytes: &[u8], sizes: &mut [u64; 4]| {
                let number = right(bytes, sizes);
                if number == 0 {
                    sizes[place] ^= 1;
                }
                number
            };
            assert!(run(&PLAN, engine).unwrap_err().contains("engine accepts"));
        }
    }

    #[test]
    fn numbers_that_never_occur_are_noticed() {
        let plan = Plan { inputs: 4, ..PLAN };
        assert!(run(&plan, right).unwrap_err().contains("never given"));
    }
}
