//! Comparing contain, lead and cover of the engine with those of the reference.

use inputs::{Call, CallInput, Lookups, Plan};

use crate::one;
use crate::row::{self, Compare, Compared, Show, Shown};
use crate::tally::{Ends, Outcome, Tally};

/// An engine's calls. Each gives 0 and sets the value, or gives the number of the refusal and leaves the value alone.
pub trait Engine {
    fn contain(&self, knowledge: &[u8], item: &[u8], replica: &[u8], tick: u64, contained: &mut u32) -> u32;
    fn lead(&self, knowledges: [&[u8]; 2], item: &[u8], replica: &[u8], lead: &mut i64) -> u32;
    fn cover(&self, knowledges: [&[u8]; 2], span: [&[u8]; 2], covers: &mut u32) -> u32;
}

const ENDS: [Ends; 3] = [
    Ends { call: "contain", answers: &["yes", "no"], knowledges: 1, ids: true, others: &[] },
    Ends { call: "lead", answers: &["below 0", "0", "above 0"], knowledges: 2, ids: true, others: &[] },
    Ends { call: "cover", answers: &["yes", "no"], knowledges: 2, ids: true, others: &[] },
];

/// Compares the engine with the reference on all calls of the plan. The error says where they first differ, or what never
/// occurred.
pub fn run(plan: &Plan, engine: &impl Engine) -> Result<Tally, String> {
    row::run::<Lookups, _>(plan, engine)
}

impl<E: Engine> Compare<E> for Lookups {
    const ENDS: &'static [Ends] = &ENDS;

    fn compare(input: &CallInput<Call>, engine: &E, _: &mut [u8]) -> Compared {
        compare(input, engine)
    }
}

impl Show for Lookups {
    fn show<'a>(call: &'a Call<'_>) -> Shown<'a> {
        let (call, arguments, also) = match *call {
            Call::Contain { knowledge, item, replica, tick } => {
                ("contain", vec![knowledge, item, replica], format!(", tick {tick}"))
            }
            Call::Lead { first, second, item, replica } => ("lead", vec![first, second, item, replica], String::new()),
            Call::Cover { first, second, first_item, last_item } => {
                ("cover", vec![first, second, first_item, last_item], String::new())
            }
        };
        Shown { call, arguments, also }
    }
}

/// Compares the two on one call, and gives its name and how both say that it ends.
fn compare(input: &CallInput<Call>, engine: &impl Engine) -> Compared {
    let yes = |answer: bool| if answer { "yes" } else { "no" };
    match input.call {
        Call::Contain { knowledge, item, replica, tick } => {
            let answer = reference::contain(knowledge, item, replica, tick);
            one::compare(
                input.place,
                [knowledge, item, replica],
                answer.map(u32::from),
                |[knowledge, item, replica], contained| engine.contain(knowledge, item, replica, tick, contained),
            )?;
            Ok(("contain", Outcome::of(answer.map(yes), knowledge)))
        }
        Call::Lead { first, second, item, replica } => {
            let answer = reference::lead(first, second, item, replica);
            one::compare(
                input.place,
                [first, second, item, replica],
                answer,
                |[first, second, item, replica], lead| engine.lead([first, second], item, replica, lead),
            )?;
            let sign = |lead: i64| match lead {
                ..0 => "below 0",
                0 => "0",
                1.. => "above 0",
            };
            Ok(("lead", Outcome::of(answer.map(sign), first)))
        }
        Call::Cover { first, second, first_item, last_item } => {
            let answer = reference::cover(first, second, first_item, last_item);
            one::compare(
                input.place,
                [first, second, first_item, last_item],
                answer.map(u32::from),
                |[first, second, from, to], covers| engine.cover([first, second], [from, to], covers),
            )?;
            Ok(("cover", Outcome::of(answer.map(yes), first)))
        }
    }
}

#[cfg(test)]
mod tests;
