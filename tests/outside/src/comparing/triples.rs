//! The orders of three knowledges, two at a time: what is behind one that is behind a third is behind the third.

use std::fmt;

use inputs::{LARGEST_COMPARISON, Plan, SplitMix64, Three, rising};

use super::Engine;
use crate::one;

/// One in so many inputs of a plan is a triple: 50,000 of 500,000.
const INPUTS_OF_A_TRIPLE: usize = 10;

/// In one of so many triples the first is behind the second and the second behind the third, at least: 5,000 of 50,000.
const EACH_TWICE_BEHIND: usize = 10;

const BEHIND: u32 = 1;

/// What a run of triples has come to.
#[derive(Debug, Default, PartialEq, Eq)]
pub struct Triples {
    pub triples: usize,
    /// Those made so that each knows at most what the next knows.
    pub made: usize,
    /// Those in which the first is behind the second and the second behind the third, so that the first is behind the third.
    pub twice_behind: usize,
}

impl fmt::Display for Triples {
    fn fmt(&self, f: &mut fmt::Formatter) -> fmt::Result {
        let Self { triples, made, twice_behind } = self;
        write!(f, "{triples} triples, {made} of them made to rise; behind twice, and so behind, × {twice_behind}")
    }
}

/// Takes the orders of random triples, every other one made so that each knows at most what the next knows. The error says where
/// "behind" does not carry over, where two knowledges in exchanged places do not have the opposite order, or where one that is
/// made to rise does not; or that too few were behind twice.
pub fn run(plan: &Plan, engine: &impl Engine) -> Result<Triples, String> {
    let random = &mut SplitMix64::new(plan.seed);
    let mut seen = Triples::default();
    for triple in 0..plan.inputs / INPUTS_OF_A_TRIPLE {
        let made = triple % 2 == 1;
        let knowledges = if made { rising(random) } else { Three::new(random).knowledges };
        let [a, b, c] = &knowledges.map(|knowledge| knowledge.bytes());
        let described = |error: String| {
            let shown = [a, b, c].map(|bytes| one::hex(bytes)).join("\n  ");
            format!("{error}\n  seed {}, triple {triple}\n  {shown}", plan.seed)
        };
        let twice = twice_behind([a, b, c], made, engine).map_err(described)?;
        seen.triples += 1;
        seen.made += usize::from(made);
        seen.twice_behind += usize::from(twice);
    }
    if seen.twice_behind < seen.triples / EACH_TWICE_BEHIND {
        return Err(format!("behind twice too seldom: {seen}"));
    }
    Ok(seen)
}

/// Whether the first is behind the second and the second behind the third.
fn twice_behind([a, b, c]: [&[u8]; 3], made: bool, engine: &impl Engine) -> Result<bool, String> {
    let orders = [order(a, b, engine)?, order(b, c, engine)?, order(a, c, engine)?];
    let twice = orders[..2] == [BEHIND; 2];
    if twice && orders[2] != BEHIND {
        return Err(format!("does not carry over: {orders:?}"));
    }
    if made && orders.iter().any(|order| *order > BEHIND) {
        return Err(format!("does not rise: {orders:?}"));
    }
    Ok(twice)
}

/// The order of two knowledges. In exchanged places they have the one with its bits exchanged.
fn order(first: &[u8], second: &[u8], engine: &impl Engine) -> Result<u32, String> {
    let given = |knowledges: [&[u8]; 2]| {
        let (mut order, mut written) = (7, 0);
        match engine.compare(knowledges, &mut order, &mut [0; LARGEST_COMPARISON], &mut written) {
            0 => Ok(order),
            number => Err(format!("compare is refused with {number}")),
        }
    };
    let [order, other] = [given([first, second])?, given([second, first])?];
    if order > 3 || other != (order >> 1 | (order & 1) << 1) {
        return Err(format!("not the opposite order: {order} and {other}"));
    }
    Ok(order)
}
