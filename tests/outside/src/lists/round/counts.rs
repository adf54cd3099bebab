//! How often something came up in rounds.

use std::collections::BTreeMap;
use std::fmt;
use std::ops::Range;

use inputs::Store;

use super::{End, World, applies, changes, edits, written};
use crate::lists::generate::DISTRICTS;
use crate::lists::list::{Call, Round};

/// What came up in one round.
#[derive(Debug)]
pub struct Seen {
    districts: usize,
    /// The numbers with which the round's own calls were refused.
    refusals: Vec<u32>,
    /// Whether every server of the round ended with another store.
    changed: bool,
    fits: Fits,
    free: Free,
}

/// How the limits of a result came up among the applies of the second half.
#[derive(Clone, Copy, Debug, Default)]
struct Fits {
    /// Those that were refused with 11 to 13.
    refused: usize,
    /// Those that must fit, after an apply of the first half that was refused with 11 to 13.
    after: usize,
    /// Those that must fit and end in another store, which is full.
    full: usize,
}

/// The calls of a round beside its own, and the order of its own.
#[derive(Clone, Copy, Debug, Default)]
struct Free {
    /// The centre edited or deleted in the first half.
    edited: bool,
    /// The centre applied a batch of the list in the first half.
    late: bool,
    /// The centre applied a district's batch twice.
    twice: bool,
    /// The centre applied something between the make of a district's batch and its apply.
    overtaken: bool,
    /// A replica that is not of the round edited, deleted or applied.
    others: bool,
    /// A batch was made beside those of the round.
    makes: bool,
}

impl Seen {
    /// What came up in a round: how its calls ended, the places and numbers of its own that were refused, and the stores before and after it.
    pub fn new(round: &Round, ends: &[End], refusals: &[(usize, u32)], before: &[Vec<u8>], world: &World) -> Self {
        let stores = round.servers().zip(before);
        let changed: Vec<usize> =
            stores.filter(|(server, store)| world.store(*server) != *store).map(|(server, _)| server).collect();
        Self {
            districts: round.districts.len(),
            refusals: refusals.iter().map(|(_, number)| *number).collect(),
            changed: changed.len() == before.len(),
            fits: Fits::new(round, ends, refusals, |server| changed.contains(&server) && full(world.store(server))),
            free: Free::new(round, ends),
        }
    }
}

/// Whether a store has as many replicas, ranges or records as one may have.
fn full(store: &[u8]) -> bool {
    Store::opened(store).is_some_and(|Store { knowledge, records, .. }| {
        knowledge.replicas.len() == 16 || knowledge.ranges.len() == 64 || records.len() == 256
    })
}

impl Fits {
    /// Those of a round; the last argument says whether a server ended with another store, which is full.
    fn new(round: &Round, ends: &[End], refusals: &[(usize, u32)], filled: impl Fn(usize) -> bool) -> Self {
        let at_limits = |places: Range<usize>| {
            refusals.iter().filter(|(place, number)| places.contains(place) && (11..=13).contains(number)).count()
        };
        let fitting: Vec<usize> = round.fitting(ends).into_iter().filter(|place| written(&ends[*place])).collect();
        Self {
            refused: at_limits(round.gather..ends.len()),
            after: if at_limits(0..round.gather) > 0 { fitting.len() } else { 0 },
            full: fitting.iter().filter(|place| filled(round.calls[**place].replica())).count(),
        }
    }
}

impl Free {
    fn new(round: &Round, ends: &[End]) -> Self {
        let done = || round.calls.iter().enumerate().filter(|(place, _)| written(&ends[*place]));
        let of_centre = |call: &Call| call.replica() == round.centre;
        let by_centre = |call: &Call| of_centre(call) && matches!(call, Call::Apply { .. });
        let own = round.own();
        let overtaken = |up: usize| {
            let (made, applied) = (round.made(up), round.applied(round.centre, up));
            done().any(|(place, call)| by_centre(call) && made < Some(place) && Some(place) < applied)
        };
        let twice = |up: usize| done().filter(|(_, call)| applies(call, round.centre, up)).count() > 1;
        let of_list = |call: &Call| matches!(call, Call::Apply { batch, .. } if round.made(*batch).is_none());
        Self {
            edited: done().any(|(_, call)| of_centre(call) && edits(call)),
            late: done().any(|(_, call)| by_centre(call) && of_list(call)),
            twice: round.districts.iter().any(|district| twice(district.up)),
            overtaken: round.districts.iter().any(|district| overtaken(district.up)),
            others: done().any(|(_, call)| changes(call) && !round.servers().any(|server| server == call.replica())),
            makes: done().any(|(place, call)| !changes(call) && !own.contains(&place)),
        }
    }
}

/// What came up in the rounds of a run.
#[derive(Clone, Debug, Default)]
pub struct Rounds {
    /// Rounds by their number of districts.
    districts: BTreeMap<usize, usize>,
    /// Own calls of rounds by the number with which they were refused.
    refusals: BTreeMap<u32, usize>,
    fits: Fits,
    /// Rounds without a refusal of an own call; all others count among these only.
    taken: usize,
    changed: usize,
    edited: usize,
    late: usize,
    twice: usize,
    overtaken: usize,
    others: usize,
    makes: usize,
}

impl Rounds {
    pub fn add(&mut self, seen: &Seen) {
        *self.districts.entry(seen.districts).or_default() += 1;
        for number in &seen.refusals {
            *self.refusals.entry(*number).or_default() += 1;
        }
        self.fits.refused += seen.fits.refused;
        self.fits.after += seen.fits.after;
        self.fits.full += seen.fits.full;
        if seen.refusals.is_empty() {
            self.taken += 1;
            self.changed += usize::from(seen.changed);
            self.edited += usize::from(seen.free.edited);
            self.late += usize::from(seen.free.late);
            self.twice += usize::from(seen.free.twice);
            self.overtaken += usize::from(seen.free.overtaken);
            self.others += usize::from(seen.free.others);
            self.makes += usize::from(seen.free.makes);
        }
    }

    /// Each count with its name, and how many it must be at least after 10,000 lists.
    fn counts(&self) -> Vec<(String, usize, usize)> {
        let mut counts = vec![("rounds".to_owned(), self.districts.values().sum(), 10_000)];
        for districts in 1..=DISTRICTS {
            let count = self.districts.get(&districts).copied().unwrap_or(0);
            let plural = if districts == 1 { "" } else { "s" };
            counts.push((format!("of {districts} district{plural}"), count, 150));
        }
        for (number, least) in [(11, 100), (12, 5), (13, 300), (14, 250)] {
            let count = self.refusals.get(&number).copied().unwrap_or(0);
            counts.push((format!("own calls refused with {number}"), count, least));
        }
        let named = [
            ("own applies of the second half refused with 11 to 13", self.fits.refused, 400),
            ("own applies that must fit after one that did not", self.fits.after, 800),
            ("own applies that must fit and fill a store", self.fits.full, 1100),
            ("rounds without a refusal", self.taken, 8500),
            ("changing every server", self.changed, 7000),
            ("with a change of the centre in the first half", self.edited, 2250),
            ("with a batch of the list applied by the centre", self.late, 2000),
            ("with a batch applied twice", self.twice, 1500),
            ("with a batch applied after others since its make", self.overtaken, 3500),
            ("with changes of other servers", self.others, 2000),
            ("with other makes", self.makes, 4500),
        ];
        counts.extend(named.map(|(name, count, least)| (name.to_owned(), count, least)));
        counts
    }

    /// The error, where something came up too seldom in so many lists.
    pub fn enough(&self, lists: usize) -> Result<(), String> {
        let least = |least: usize| (least * lists).div_ceil(10_000);
        match self.counts().into_iter().find(|(_, count, bar)| *count < least(*bar)) {
            None => Ok(()),
            Some((name, count, bar)) => {
                let least = least(bar);
                Err(format!("too few: {name} × {count} after {lists} lists, not × {least}; {self}"))
            }
        }
    }
}

impl fmt::Display for Rounds {
    fn fmt(&self, f: &mut fmt::Formatter) -> fmt::Result {
        let texts: Vec<String> = self.counts().iter().map(|(name, count, _)| format!("{name} × {count}")).collect();
        write!(f, "{}", texts.join(", "))
    }
}

#[cfg(test)]
mod tests {
    use super::*;

    /// Rounds that are just enough for 10,000 lists.
    fn just_enough() -> Rounds {
        Rounds {
            districts: BTreeMap::from([(1, 9250), (2, 150), (3, 150), (4, 150), (5, 150), (6, 150)]),
            refusals: BTreeMap::from([(11, 100), (12, 5), (13, 300), (14, 250)]),
            fits: Fits { refused: 400, after: 800, full: 1100 },
            taken: 8500,
            changed: 7000,
            edited: 2250,
            late: 2000,
            twice: 1500,
            overtaken: 3500,
            others: 2000,
            makes: 4500,
        }
    }

    #[test]
    fn a_store_is_full_at_each_limit() {
        let filled = |[replicas, ranges, records]: [usize; 3]| full(&Store::filled(replicas, ranges, records).bytes());
        assert!(!filled([15, 63, 255]));
        for at_limit in [[16, 63, 255], [15, 64, 255], [15, 63, 256]] {
            assert!(filled(at_limit), "{at_limit:?}");
        }
    }

    #[test]
    fn each_must_come_up_often_enough() {
        let bars = just_enough();
        assert_eq!(bars.enough(10_000), Ok(()));
        let too_few = |rounds: Rounds, words: &str| {
            let error = rounds.enough(10_000).unwrap_err();
            assert!(error.starts_with(&format!("too few: {words} after 10000 lists, not × ")), "{error}");
        };
        let mut fewer = bars.clone();
        fewer.districts.insert(1, 9249);
        too_few(fewer, "rounds × 9999");
        for districts in 1..=DISTRICTS {
            let mut fewer = bars.clone();
            fewer.districts.insert(7, 10_000);
            fewer.districts.insert(districts, 149);
            too_few(fewer, &format!("of {districts} district{} × 149", if districts == 1 { "" } else { "s" }));
        }
        for (number, bar) in &bars.refusals {
            let mut fewer = bars.clone();
            fewer.refusals.insert(*number, bar - 1);
            too_few(fewer, &format!("own calls refused with {number} × {}", bar - 1));
        }
        let fewer = |fits: Fits| Rounds { fits, ..bars.clone() };
        let second = "own applies of the second half refused with 11 to 13 × 399";
        too_few(fewer(Fits { refused: 399, ..bars.fits }), second);
        too_few(fewer(Fits { after: 799, ..bars.fits }), "own applies that must fit after one that did not × 799");
        too_few(fewer(Fits { full: 1099, ..bars.fits }), "own applies that must fit and fill a store × 1099");
        too_few(Rounds { taken: 8499, ..bars.clone() }, "rounds without a refusal × 8499");
        too_few(Rounds { changed: 6999, ..bars.clone() }, "changing every server × 6999");
        too_few(Rounds { edited: 2249, ..bars.clone() }, "with a change of the centre in the first half × 2249");
        too_few(Rounds { late: 1999, ..bars.clone() }, "with a batch of the list applied by the centre × 1999");
        too_few(Rounds { twice: 1499, ..bars.clone() }, "with a batch applied twice × 1499");
        too_few(Rounds { overtaken: 3499, ..bars.clone() }, "with a batch applied after others since its make × 3499");
        too_few(Rounds { others: 1999, ..bars.clone() }, "with changes of other servers × 1999");
        too_few(Rounds { makes: 4499, ..bars }, "with other makes × 4499");
    }
}
