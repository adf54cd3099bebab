//! Rounds that break a premise: some end unalike.

use std::fmt;

use inputs::SplitMix64;

use super::{DISTRICT_CHANGES, NOT_ALL_IDS, NOT_MADE, unalike, written};
use crate::calls;
use crate::changing::Engine;
use crate::lists::generate::{self, Breach};
use crate::lists::list::{List, Round};
use crate::lists::{Plan, ending, play};
use crate::tally::Tally;

/// How the rounds of a run ended that break a premise.
#[derive(Debug)]
pub struct Broken {
    breach: Breach,
    rounds: usize,
    /// Those without a refusal of an own call, and those of them that ended unalike.
    taken: usize,
    unalike: usize,
}

impl fmt::Display for Broken {
    fn fmt(&self, f: &mut fmt::Formatter) -> fmt::Result {
        let Self { breach, rounds, taken, unalike } = self;
        let breach = match breach {
            Breach::LateEdit => "a district edits after its make",
            Breach::EarlyMake => "the centre makes a batch before its last apply",
            Breach::HalfOfTheIds => "a batch is over half of the ids",
        };
        write!(f, "{breach}: rounds × {rounds}, without a refusal × {taken}, ended unalike × {unalike}")
    }
}

/// The premise that a breach breaks.
fn premise(breach: Breach) -> &'static str {
    match breach {
        Breach::LateEdit => DISTRICT_CHANGES,
        Breach::EarlyMake => NOT_MADE,
        Breach::HalfOfTheIds => NOT_ALL_IDS,
    }
}

/// Plays random lists, and after each a round that breaks a premise. The error says what went wrong first, or that no round ended unalike.
pub fn run_broken(
    plan: &Plan,
    breach: Breach,
    engine: &(impl Engine + calls::Engine),
    reference: &impl Engine,
) -> Result<Broken, String> {
    let mut broken = Broken { breach, rounds: 0, taken: 0, unalike: 0 };
    let [random, for_rounds] = &mut [plan.seed, !plan.seed].map(SplitMix64::new);
    for place in 0..plan.lists {
        let style = generate::style(random);
        let mut list = generate::list(random, style);
        let round = generate::broken(for_rounds, &list, breach).ok_or("a list has no round")?;
        if round.premises() != Err(premise(breach)) {
            return Err(format!("{breach:?}: {:?} is found to be broken", round.premises()));
        }
        list.round = Some(round.clone());
        let alike = try_broken(&list, &round, engine, reference).map_err(|error| {
            // As one list of calls it can be played again.
            let list = List { calls: list.all_calls().cloned().collect(), round: None, ..list.clone() };
            format!("{error}\n  seed {}, list {place} of {} ({style:?}), {breach:?}\n{list}", plan.seed, plan.lists)
        })?;
        broken.rounds += 1;
        broken.taken += usize::from(alike.is_some());
        broken.unalike += usize::from(alike == Some(false));
    }
    if broken.unalike > 0 { Ok(broken) } else { Err(format!("none ended unalike: {broken}")) }
}

/// Plays a list and a round of it that breaks a premise. Gives whether its servers end alike; nothing where one of its own calls was refused.
fn try_broken(
    list: &List,
    round: &Round,
    engine: &(impl Engine + calls::Engine),
    reference: &impl Engine,
) -> Result<Option<bool>, String> {
    let mut world = play::play(list, engine, reference, &mut Tally::default())?;
    let (_, ends) = super::play(list, round, &mut world, engine, reference)?;
    ending::compare(list, &world, "round")?;
    if round.own().into_iter().any(|place| !written(&ends[place])) {
        return Ok(None);
    }
    Ok(Some(unalike(round, &world, engine)?.is_none()))
}
