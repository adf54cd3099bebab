//! Random rounds through a centre after a list, and ones that break a premise.

use std::collections::BTreeSet;

use inputs::{FIRST_ITEM, ItemId, LAST_ITEM, Room, SplitMix64};

use super::super::list::{Call, District, Given, List, Round};
use super::Making;

/// A round has at most so many districts.
pub const DISTRICTS: usize = 6;

/// A random round after a list; none where the list has no two replicas.
pub fn round(random: &mut SplitMix64, list: &List) -> Option<Round> {
    let mut order: Vec<usize> = (0..list.replicas.len()).collect();
    random.shuffle(&mut order);
    let (centre, order) = order.split_first().filter(|(_, order)| !order.is_empty())?;
    let (districts, others) = order.split_at(random.between(1, DISTRICTS).min(order.len()));
    let listed = list.calls.iter().map(|call| if let Call::Make { batch, .. } = call { batch + 1 } else { 0 });
    let listed = listed.max().unwrap_or(0);
    let empty = List { replicas: list.replicas.clone(), calls: Vec::new(), round: None };
    let mut drawing = Drawing {
        making: Making { items: items(list), list: empty, batches: listed, careful: false, random },
        centre: *centre,
        districts: districts.iter().map(|replica| District { replica: *replica, up: 0, down: 0 }).collect(),
        others: others.to_vec(),
        listed,
        applied: Vec::new(),
    };
    drawing.half(Half::Gather);
    let gather = drawing.making.list.calls.len();
    drawing.half(Half::Spread);
    let Drawing { making, centre, districts, .. } = drawing;
    Some(Round { centre, districts, calls: making.list.calls, gather })
}

/// The items that a list edits, or the first of all where it edits none.
fn items(list: &List) -> Vec<ItemId> {
    let edited = list.calls.iter().filter_map(|call| match call {
        Call::Edit { item, .. } => ItemId::try_from(&item[..]).ok(),
        _ => None,
    });
    let items: BTreeSet<ItemId> = edited.collect();
    if items.is_empty() { vec![FIRST_ITEM] } else { items.into_iter().collect() }
}

#[derive(Clone, Copy, PartialEq, Eq)]
enum Half {
    /// Each district makes a batch, and the centre applies it.
    Gather,
    /// The centre makes a batch for each district, which applies it.
    Spread,
}

struct Drawing<'a> {
    making: Making<'a>,
    centre: usize,
    districts: Vec<District>,
    /// The replicas that are not of the round.
    others: Vec<usize>,
    /// So many batches are the list's.
    listed: usize,
    /// The districts' batches that the centre has applied.
    applied: Vec<usize>,
}

impl Drawing<'_> {
    /// A make and an apply for each district, and other calls between. Batches are applied as soon as they are made, when all are made, or at any time.
    fn half(&mut self, half: Half) {
        let order = self.making.random.below(3);
        let mut left: Vec<usize> = (0..self.districts.len()).collect();
        self.making.random.shuffle(&mut left);
        let mut waiting = Vec::new();
        while !left.is_empty() || !waiting.is_empty() {
            self.between(half);
            let more = match order {
                0 => false,
                1 => true,
                _ => self.making.random.once_in(2),
            };
            match left.last() {
                Some(place) if more || waiting.is_empty() => {
                    self.make(half, *place);
                    waiting.extend(left.pop());
                }
                _ => {
                    let place = waiting.swap_remove(self.making.random.below(waiting.len()));
                    self.apply(half, place);
                }
            }
        }
        self.between(half);
    }

    /// The batch of a district in a half, for what its taker knows then.
    fn make(&mut self, half: Half, place: usize) {
        let (district, batch) = (&mut self.districts[place], self.making.batches);
        let (replica, taker) = match half {
            Half::Gather => {
                district.up = batch;
                (district.replica, self.centre)
            }
            Half::Spread => {
                district.down = batch;
                (self.centre, district.replica)
            }
        };
        self.making.batches += 1;
        let (given, room) = (Given::Of(taker, 0), self.room());
        let (first, last) = (FIRST_ITEM.to_vec(), LAST_ITEM.to_vec());
        self.making.list.calls.push(Call::Make { replica, batch, given, first, last, room });
    }

    fn apply(&mut self, half: Half, place: usize) {
        let District { replica, up, down } = self.districts[place];
        let (replica, batch) = match half {
            Half::Gather => {
                self.applied.push(up);
                (self.centre, up)
            }
            Half::Spread => (replica, down),
        };
        let room = self.room();
        self.making.list.calls.push(Call::Apply { replica, batch, room });
    }

    /// Almost always a buffer that is long enough.
    fn room(&mut self) -> Room {
        if self.making.random.once_in(200) {
            return Room::Less(self.making.random.between(1, 100));
        }
        self.making.careful = true;
        let room = self.making.room();
        self.making.careful = false;
        room
    }

    /// Sometimes a call that may stand in this half: a make of any replica, any call of one that is not of the round, and as long as the centre
    /// may change anything, its apply of a batch of the list, or of one that it has applied, its edit or its deletion.
    fn between(&mut self, half: Half) {
        match self.making.random.below(12) {
            0 => {
                let replica = self.making.replica();
                self.making.make(replica);
            }
            1 if half == Half::Gather && self.listed > 0 => {
                let back = if self.making.random.once_in(2) { self.listed.min(6) } else { self.listed };
                let batch = self.listed - 1 - self.making.random.below(back);
                self.making.apply_to(self.centre, batch);
            }
            2 if half == Half::Gather && !self.applied.is_empty() => {
                let batch = *self.making.random.choose(&self.applied);
                self.making.apply_to(self.centre, batch);
            }
            3 if half == Half::Gather && self.making.random.once_in(3) => self.making.delete(self.centre),
            3 if half == Half::Gather => self.making.edit(self.centre),
            1..=4 if !self.others.is_empty() => {
                let other = *self.making.random.choose(&self.others);
                self.making.any(other, 35);
            }
            _ => {}
        }
    }
}

/// A premise of a round that is broken.
#[derive(Clone, Copy, Debug, PartialEq, Eq)]
pub enum Breach {
    /// A district edits after its make, in the first half.
    LateEdit,
    /// The centre makes a batch for a district before its last apply of the first half.
    EarlyMake,
    /// A batch is over half of the ids.
    HalfOfTheIds,
}

impl Breach {
    pub const ALL: [Self; 3] = [Self::LateEdit, Self::EarlyMake, Self::HalfOfTheIds];
}

/// A random round that breaks one premise.
pub fn broken(random: &mut SplitMix64, list: &List, breach: Breach) -> Option<Round> {
    let mut round = round(random, list)?;
    let District { replica, up, down } = *random.choose(&round.districts);
    match breach {
        Breach::LateEdit => {
            let (item, tag): (ItemId, [u8; 16]) = (*random.choose(&items(list)), random.bytes());
            let edit = Call::Edit { replica, item: item.to_vec(), tag: tag.to_vec(), room: Room::More(0) };
            round.calls.insert(random.between(round.made(up)? + 1, round.gather), edit);
            round.gather += 1;
        }
        Breach::EarlyMake => {
            let make = round.calls.remove(round.made(down)?);
            let applies = |call: &Call| matches!(call, Call::Apply { replica, .. } if *replica == round.centre);
            let last = round.calls[..round.gather].iter().rposition(applies)?;
            round.calls.insert(random.between(0, last), make);
            round.gather += 1;
        }
        Breach::HalfOfTheIds => {
            let made = round.made(*random.choose(&[up, down]))?;
            if let Call::Make { first, last, .. } = &mut round.calls[made] {
                if random.once_in(2) { first[0] = 0x80 } else { last[0] = 0x7f }
            }
        }
    }
    Some(round)
}
