//! A round through a centre after a list of calls: its premises, and what holds after it.

mod broken;
mod counts;

use std::collections::BTreeSet;

use inputs::{FIRST_ITEM, LAST_ITEM};

use super::ending;
use super::list::{Call, District, Given, List, Round};
use super::play::{End, World, parts_of, play_on};
use crate::calls;
use crate::changing::Engine;
use crate::tally::Outcome;
pub use broken::run_broken;
pub use counts::{Rounds, Seen};

const DISTRICT_CHANGES: &str = "a district edits, deletes or applies in the first half";
const NOT_MADE: &str = "a batch is not made in its half";
const NOT_ALL_IDS: &str = "a batch is not over all ids";

/// Whether it is an edit, a deletion or an apply.
fn changes(call: &Call) -> bool {
    !matches!(call, Call::Make { .. })
}

/// Whether it is an edit or a deletion.
fn edits(call: &Call) -> bool {
    matches!(call, Call::Edit { .. } | Call::Delete { .. })
}

fn makes(call: &Call, name: usize) -> bool {
    matches!(call, Call::Make { batch, .. } if *batch == name)
}

fn applies(call: &Call, server: usize, name: usize) -> bool {
    matches!(call, Call::Apply { replica, batch, .. } if (*replica, *batch) == (server, name))
}

/// Whether a call was made and not refused.
fn written(end: &End) -> bool {
    matches!(end, Some((_, Outcome::Answer(_))))
}

/// The error, unless it holds.
fn hold(holds: bool, error: &'static str) -> Result<(), &'static str> {
    if holds { Ok(()) } else { Err(error) }
}

/// The error, unless a batch is made in a half, over all ids and for what the taker knows at that moment, and the taker then applies it.
fn sent(half: &[Call], maker: usize, taker: usize, batch: usize) -> Result<(), &'static str> {
    let made = half.iter().position(|call| makes(call, batch)).ok_or(NOT_MADE)?;
    if let Call::Make { replica, given, first, last, .. } = &half[made] {
        hold(*replica == maker, "a batch is made by another server")?;
        hold(*given == Given::Of(taker, 0), "a batch is not made for what its taker knows at that moment")?;
        hold(first[..] == FIRST_ITEM && last[..] == LAST_ITEM, NOT_ALL_IDS)?;
    }
    hold(half[made..].iter().any(|call| applies(call, taker, batch)), "a batch is not applied in its half")
}

impl Round {
    /// The centre and then the districts.
    pub fn servers(&self) -> impl Iterator<Item = usize> {
        [self.centre].into_iter().chain(self.districts.iter().map(|district| district.replica))
    }

    /// The place of the make of a batch.
    pub fn made(&self, batch: usize) -> Option<usize> {
        self.calls.iter().position(|call| makes(call, batch))
    }

    /// The place of the first apply of a batch on a server after its make.
    fn applied(&self, server: usize, batch: usize) -> Option<usize> {
        let made = self.made(batch)?;
        Some(made + self.calls[made..].iter().position(|call| applies(call, server, batch))?)
    }

    /// The places of the round's own makes and applies.
    fn own(&self) -> BTreeSet<usize> {
        let places = self.districts.iter().flat_map(|District { replica, up, down }| {
            let applied = [self.applied(self.centre, *up), self.applied(*replica, *down)];
            [self.made(*up), self.made(*down)].into_iter().chain(applied)
        });
        places.flatten().collect()
    }

    /// The premise that does not hold, if there is one: what is asked of the calls of a round.
    pub fn premises(&self) -> Result<(), &'static str> {
        let servers: BTreeSet<usize> = self.servers().collect();
        hold(!self.districts.is_empty() && servers.len() == self.districts.len() + 1, "the servers are not distinct")?;
        let (gather, spread) = self.calls.split_at(self.gather);
        let of_district = |call: &Call| call.replica() != self.centre && servers.contains(&call.replica());
        hold(!gather.iter().any(|call| changes(call) && of_district(call)), DISTRICT_CHANGES)?;
        hold(
            !spread.iter().any(|call| changes(call) && call.replica() == self.centre),
            "the centre edits, deletes or applies in the second half",
        )?;
        for District { replica, up, down } in &self.districts {
            let once = |batch: usize| self.calls.iter().filter(|call| makes(call, batch)).count() <= 1;
            hold(up != down && once(*up) && once(*down), "two batches have one name")?;
            sent(gather, *replica, self.centre, *up)?;
            sent(spread, self.centre, *replica, *down)?;
            let own = spread.iter().filter(|call| changes(call) && call.replica() == *replica);
            hold(own.count() == 1, "a district changes or applies anything else in the second half")?;
        }
        Ok(())
    }

    /// Whether the centre took in what a district sent in the first half.
    fn gathered(&self, district: &District, ends: &[End]) -> bool {
        let taken = |place: usize| applies(&self.calls[place], self.centre, district.up) && written(&ends[place]);
        self.made(district.up).is_some_and(|made| written(&ends[made]) && (made..self.gather).any(taken))
    }

    /// The places of the applies of the second half that must fit into the limits. The centre has taken in what the district sent, so that the
    /// district then has what the centre has, and that fits.
    fn fitting(&self, ends: &[End]) -> BTreeSet<usize> {
        let gathered = self.districts.iter().filter(|district| self.gathered(district, ends));
        gathered.filter_map(|District { replica, down, .. }| self.applied(*replica, *down)).collect()
    }

    /// The places of the round's own calls that were refused, with the numbers. A make of it can be refused for a short buffer only, and an apply for
    /// that and at a limit of its result, unless it must fit; the error where one was refused with another number.
    fn refusals(&self, ends: &[End]) -> Result<Vec<(usize, u32)>, String> {
        let (fitting, mut refusals) = (self.fitting(ends), Vec::new());
        for place in self.own() {
            // A batch of which the make was refused is not applied.
            let Some((name, outcome)) = ends[place] else { continue };
            let reason = match (name, outcome) {
                (_, Outcome::Answer(_)) => continue,
                ("apply", Outcome::Other(11..=13)) if fitting.contains(&place) => {
                    "though the centre has all that the district has"
                }
                ("make", Outcome::Other(number @ 14)) | ("apply", Outcome::Other(number @ 11..=14)) => {
                    refusals.push((place, number));
                    continue;
                }
                _ => "which no state of a list explains",
            };
            return Err(format!("in the round, {}: refused with {outcome}, {reason}", self.calls[place]));
        }
        Ok(refusals)
    }
}

/// Whether the engine says that the first knowledge covers the second over all ids.
fn covers(engine: &impl calls::Engine, knowledges: [&[u8]; 2]) -> Result<bool, String> {
    let mut covers = 0;
    match engine.cover(knowledges, [&FIRST_ITEM, &LAST_ITEM], &mut covers) {
        0 => Ok(covers == 1),
        number => Err(format!("after the round, cover is refused with {number}")),
    }
}

/// What two servers of a round differ in, if any two do: the records that they hold, or what they know over all ids.
fn unalike(round: &Round, world: &World, engine: &impl calls::Engine) -> Result<Option<String>, String> {
    let servers: Vec<usize> = round.servers().collect();
    for (place, one) in servers.iter().enumerate() {
        for other in &servers[..place] {
            let [[known, held], [other_known, other_held]] = [one, other].map(|server| parts_of(world.store(*server)));
            if held != other_held {
                return Ok(Some(format!("after the round, replicas {other} and {one} hold unlike records")));
            }
            if !covers(engine, [known, other_known])? || !covers(engine, [other_known, known])? {
                return Ok(Some(format!("after the round, replicas {other} and {one} do not know the same")));
            }
        }
    }
    Ok(None)
}

/// The error, where a server does not know all that it knew before the round; and unless a call was refused, all that any of them knew.
fn nothing_is_lost(
    round: &Round,
    before: &[Vec<u8>],
    world: &World,
    refused: bool,
    engine: &impl calls::Engine,
) -> Result<(), String> {
    for (place, server) in round.servers().enumerate() {
        let [known, _] = parts_of(world.store(server));
        for (other, store) in before.iter().enumerate() {
            if (other == place || !refused) && !covers(engine, [known, parts_of(store)[0]])? {
                return Err(format!("after the round, replica {server} lacks something that was known before"));
            }
        }
    }
    Ok(())
}

/// Plays the round after a list, and looks at everything that holds after it.
pub fn try_round(
    list: &List,
    round: &Round,
    world: &mut World,
    engine: &(impl Engine + calls::Engine),
    reference: &impl Engine,
) -> Result<Seen, String> {
    round.premises().map_err(|premise| format!("not a round: {premise}"))?;
    let (before, ends) = play(list, round, world, engine, reference)?;
    let refusals = round.refusals(&ends)?;
    if refusals.is_empty()
        && let Some(error) = unalike(round, world, engine)?
    {
        return Err(error);
    }
    nothing_is_lost(round, &before, world, !refusals.is_empty(), engine)?;
    ending::compare(list, world, "round")?;
    Ok(Seen::new(round, &ends, &refusals, &before, world))
}

/// Plays the calls of a round. Gives the stores that its servers had before, and how the calls ended.
fn play(
    list: &List,
    round: &Round,
    world: &mut World,
    engine: &impl Engine,
    reference: &impl Engine,
) -> Result<(Vec<Vec<u8>>, Vec<End>), String> {
    let before = round.servers().map(|server| world.store(server).to_vec()).collect();
    let ends = play_on(world, list.calls.len(), &round.calls, engine, reference);
    Ok((before, ends.map_err(|error| format!("in the round, {error}"))?))
}

#[cfg(test)]
mod tests;
