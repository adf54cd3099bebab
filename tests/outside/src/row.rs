//! Comparing an engine with the reference on all calls of a row.

use inputs::{CallInput, Plan, Row};

use crate::one;
use crate::tally::{Ends, Outcome, Tally};

/// A call as an error shows it: its name, its arguments, and what else it was given.
pub struct Shown<'a> {
    pub call: &'static str,
    pub arguments: Vec<&'a [u8]>,
    pub also: String,
}

/// A row whose calls can be shown.
pub trait Show: Row {
    fn show<'a>(call: &'a Self::Call<'_>) -> Shown<'a>;
}

/// The name of a call and how engine and reference say that it ends, or where they differ.
pub type Compared = Result<(&'static str, Outcome), String>;

/// A row whose calls an engine of this type has.
pub trait Compare<E>: Show {
    /// The ways in which its calls can end.
    const ENDS: &'static [Ends];

    /// The length of the longest result that the reference writes.
    const LONGEST: usize = 0;

    /// Compares the two on one call. The reference writes into a buffer that no result is longer than.
    fn compare(input: &CallInput<Self::Call<'_>>, engine: &E, longest: &mut [u8]) -> Compared;
}

/// Compares the engine with the reference on all calls of the plan. The error says where they first differ, or what never
/// occurred.
pub fn run<R: Compare<E>, E>(plan: &Plan, engine: &E) -> Result<Tally, String> {
    let mut tally = Tally::default();
    let mut longest = vec![0; R::LONGEST];
    plan.try_for_each_call::<R>(|input| {
        let compared = R::compare(&input, engine, &mut longest);
        let (call, outcome) = compared.map_err(|difference| describe::<R>(plan, &input, &difference))?;
        tally.add(call, outcome);
        Ok(())
    })?;
    tally.complete(R::ENDS)
}

/// A difference, with the call and its place in the run.
pub fn describe<R: Show>(plan: &Plan, input: &CallInput<R::Call<'_>>, difference: &str) -> String {
    let Shown { call, arguments, also } = R::show(&input.call);
    let mut text = format!(
        "{call}: {difference}\n  seed {}, call {} of {} ({}){also}",
        plan.seed, input.place, plan.inputs, input.family
    );
    for argument in arguments {
        text += &format!("\n  {}", one::hex(argument));
    }
    text
}
