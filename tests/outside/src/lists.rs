//! Random lists of calls: the engine against the reference, byte for byte after every call, and both against the plain history machine at the
//! end; then batches of the list in either order, and twice; then how far each record of a new item moved the figure of coverage; then a round
//! through a centre, after which its servers are alike.

mod ending;
mod generate;
mod limits;
pub mod list;
mod machine;
mod play;
mod round;
mod shrink;

use std::fmt;

use inputs::{SplitMix64, number_from_environment};

use crate::calls;
use crate::changing::Engine;
use crate::reading;
use crate::tally::{Ends, Tally};
use crate::writing::WRITTEN;
use ending::{Additions, Ended};
use generate::Style;
use limits::{Limits, Reached};
use list::List;
use round::{Rounds, Seen};

pub use generate::Breach;
pub use round::run_broken;

/// An engine with all calls that a run needs.
pub trait Whole: Engine + reading::Engine + calls::Engine {}

impl<E: Engine + reading::Engine + calls::Engine> Whole for E {}

/// How many lists a run has, and which.
#[derive(Clone, Copy, Debug)]
pub struct Plan {
    pub seed: u64,
    pub lists: usize,
}

impl Plan {
    pub const USUAL: Self = Self { seed: 1_792_024, lists: 10_000 };

    /// As many lists as `SYNC_LISTS` says, from the seed that `SYNC_SEED` says; where one is not set, as in the usual run.
    pub fn from_environment() -> Self {
        Self {
            seed: number_from_environment("SYNC_SEED").unwrap_or(Self::USUAL.seed),
            lists: number_from_environment("SYNC_LISTS").map_or(Self::USUAL.lists, |lists| lists as usize),
        }
    }
}

/// How the calls of the lists can end. No store and no batch that comes up is refused as not valid.
const ENDS: [Ends; 4] = [
    Ends { call: "edit", answers: &[WRITTEN], knowledges: 0, ids: true, others: &[11, 13, 14, 20] },
    Ends { call: "delete", answers: &[WRITTEN], knowledges: 0, ids: true, others: &[11, 14, 19, 20] },
    Ends { call: "make", answers: &[WRITTEN], knowledges: 1, ids: true, others: &[12, 14] },
    Ends { call: "apply", answers: &[WRITTEN], knowledges: 0, ids: false, others: &[11, 12, 13, 14, 18] },
];

/// What came up in a run.
#[derive(Debug, Default)]
pub struct Lists {
    lists: usize,
    /// Lists of 10 to 60 calls, and of over 300.
    middle: usize,
    long: usize,
    calls: Tally,
    limits: Reached,
    ended: Ended,
    /// Lists with a pair of batches of which all four applies succeed and change the store.
    changing: usize,
    additions: Additions,
    rounds: Rounds,
}

impl fmt::Display for Lists {
    fn fmt(&self, f: &mut fmt::Formatter) -> fmt::Result {
        let Ended { pairs, taken, twice, twice_taken, .. } = self.ended;
        write!(
            f,
            "{} lists, {} of 10 to 60 calls and {} of over 300; {}; {}; ",
            self.lists, self.middle, self.long, self.calls, self.limits
        )?;
        write!(f, "in either order × {pairs}, all taken × {taken}, in {} lists all changing; ", self.changing)?;
        write!(f, "twice × {twice}, both taken × {twice_taken}; ")?;
        let Additions { by_edits, by_applies } = self.additions;
        write!(f, "one record of a new item by an edit × {by_edits}, by an apply × {by_applies}; {}", self.rounds)
    }
}

impl Lists {
    fn add(&mut self, list: &List, tried: &Tried) {
        let Tried { limits, ended, additions, round } = tried;
        self.lists += 1;
        self.limits.add(limits);
        self.middle += usize::from((10..=60).contains(&list.calls.len()));
        self.long += usize::from(list.calls.len() > 300);
        self.changing += usize::from(ended.changing > 0);
        self.ended.pairs += ended.pairs;
        self.ended.taken += ended.taken;
        self.ended.changing += ended.changing;
        self.ended.twice += ended.twice;
        self.ended.twice_taken += ended.twice_taken;
        self.additions.by_edits += additions.by_edits;
        self.additions.by_applies += additions.by_applies;
        round.iter().for_each(|round| self.rounds.add(round));
    }

    /// The error, where something that a run of many lists must have did not come up.
    fn complete(self) -> Result<Self, String> {
        self.calls.clone().complete(&ENDS)?;
        self.limits.enough(self.lists)?;
        self.rounds.enough(self.lists)?;
        let enough = self.middle > self.lists / 2
            && self.long > self.lists / 200
            && self.ended.pairs >= 4 * self.lists
            && self.ended.twice >= 4 * self.lists
            && self.changing > self.lists / 10
            && self.additions.by_edits >= 2 * self.lists
            && self.additions.by_applies >= self.lists;
        if enough { Ok(self) } else { Err(format!("too few: {self}")) }
    }
}

/// Lists of fewer need not have everything.
const MANY: usize = 2_000;

/// Plays random lists, and a random round after each. The error says what went wrong first, with the list made as small as possible; or what
/// never came up.
pub fn run(plan: &Plan, engine: &impl Whole, reference: &impl Engine) -> Result<Lists, String> {
    run_styles(plan, generate::style, engine, reference)
}

/// The same with lists of styles that are drawn in another way.
fn run_styles(
    plan: &Plan,
    draw: impl Fn(&mut SplitMix64) -> Style,
    engine: &impl Whole,
    reference: &impl Engine,
) -> Result<Lists, String> {
    let mut lists = Lists::default();
    // Rounds are drawn apart, so that a seed gives the same lists with and without them.
    let [random, for_rounds] = &mut [plan.seed, !plan.seed].map(SplitMix64::new);
    for place in 0..plan.lists {
        let style = draw(random);
        let mut list = generate::list(random, style);
        list.round = generate::round(for_rounds, &list);
        match try_list(&list, engine, reference, &mut lists.calls) {
            Ok(tried) => lists.add(&list, &tried),
            Err(error) => {
                let again = |list: &List| try_list(list, engine, reference, &mut Tally::default()).err();
                let (list, error) = shrink::shrink(&list, error, again);
                return Err(format!(
                    "{error}\n  seed {}, list {place} of {} ({style:?})\n{list}",
                    plan.seed, plan.lists
                ));
            }
        }
    }
    if plan.lists >= MANY { lists.complete() } else { Ok(lists) }
}

/// What came up in one list: the limits that it came to, what was tried after it, the records of new items that came one at a time, and its round.
#[derive(Debug)]
pub struct Tried {
    limits: Limits,
    ended: Ended,
    additions: Additions,
    round: Option<Seen>,
}

/// Plays one list and its round, and looks at everything that holds after each. Of the round, no call is in the tally or comes to a limit.
pub fn try_list(list: &List, engine: &impl Whole, reference: &impl Engine, calls: &mut Tally) -> Result<Tried, String> {
    let mut world = play::play(list, engine, reference, calls)?;
    ending::compare(list, &world, "list")?;
    let ended = ending::in_either_order(list, &world, engine, reference)?;
    let additions = ending::one_record_more(&world, engine)?;
    let round = list.round.as_ref().map(|round| round::try_round(list, round, &mut world, engine, reference));
    Ok(Tried { round: round.transpose()?, limits: world.limits, ended, additions })
}

#[cfg(test)]
mod tests;
