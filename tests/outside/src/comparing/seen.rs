//! What a run of compares has come to.

use std::fmt;

use inputs::{FIRST_ITEM, LARGEST_COMPARISON, LAST_ITEM};

use super::{Answer, ORDERS, outcome};
use crate::tally::{Ends, Tally};

/// The ways in which a compare can end.
const ENDS: [Ends; 1] = [Ends { call: "compare", answers: &ORDERS, knowledges: 2, ids: false, others: &[14] }];

/// One in so many pairs has each order, at least: 2,000 of 200,000.
const EACH_ORDER: u64 = 100;

/// Where the item of a place is.
const ITEMS: [&str; 5] =
    ["the first item", "a bound of the first only", "a bound of the second only", "a bound of both", "the last item"];

/// How often each answer was given, and where the places were.
#[derive(Debug, Default)]
pub struct Seen {
    tally: Tally,
    /// The items of the first's places and of the second's.
    items: [[u64; ITEMS.len()]; 2],
    /// Pairs in which both knowledges have a fault, and those of them in which the two have different numbers.
    both_faulty: u64,
    unlike_faults: u64,
}

impl Seen {
    pub fn pairs(&self) -> u64 {
        self.tally.calls()
    }

    /// Takes in a pair and its answer. The error, where a place is at no bound.
    pub(super) fn add(&mut self, [first, second]: [&[u8]; 2], answer: Answer) -> Result<(), String> {
        self.tally.add("compare", outcome(first, answer));
        match answer {
            Ok((order, bytes)) => {
                let sides = (0..2).filter(|side| order >> side & 1 == 1);
                for (side, place) in sides.zip(bytes.chunks(LARGEST_COMPARISON / 2)) {
                    self.items[side][item([first, second], &place[..24])?] += 1;
                }
            }
            Err(_) => {
                if let [Err(first), Err(second)] = [first, second].map(reference::check) {
                    self.both_faulty += 1;
                    self.unlike_faults += u64::from(first != second);
                }
            }
        }
        Ok(())
    }

    /// Itself, if everything occurred, and each order often enough.
    pub(super) fn complete(self) -> Result<Self, String> {
        self.tally.clone().complete(&ENDS)?;
        let seldom = ORDERS.iter().find(|order| self.tally.count("compare", order) < self.pairs() / EACH_ORDER);
        if let Some(order) = seldom {
            return Err(format!("occurred too seldom: {order}; {self}"));
        }
        if self.items.iter().flatten().any(|count| *count == 0) || self.unlike_faults == 0 {
            return Err(format!("a place or a pair of faults never occurred; {self}"));
        }
        Ok(self)
    }
}

/// Which of the items an item is.
fn item(knowledges: [&[u8]; 2], item: &[u8]) -> Result<usize, String> {
    if item == FIRST_ITEM {
        return Ok(0);
    }
    if item == LAST_ITEM {
        return Ok(4);
    }
    match knowledges.map(|knowledge| is_bound(knowledge, item)) {
        [true, false] => Ok(1),
        [false, true] => Ok(2),
        [true, true] => Ok(3),
        [false, false] => Err(format!("the place {item:?} is at no bound")),
    }
}

/// Whether a range of a knowledge without fault starts at an item. Behind the ranges are 13 bytes.
fn is_bound(knowledge: &[u8], item: &[u8]) -> bool {
    let ranges = reference::check(knowledge).map_or(0, |sizes| sizes.g as usize);
    let behind = knowledge.len() - 13;
    knowledge[behind - 28 * ranges..behind].chunks(28).any(|range| range[..24] == *item)
}

impl fmt::Display for Seen {
    fn fmt(&self, f: &mut fmt::Formatter) -> fmt::Result {
        let Self { tally, items, both_faulty, unlike_faults } = self;
        write!(f, "{tally}; both faulty × {both_faulty}, with two numbers × {unlike_faults}")?;
        for (side, counts) in ["the first", "the second"].iter().zip(items) {
            write!(f, "; {side} lacks first at ")?;
            let counts: Vec<String> = ITEMS.iter().zip(counts).map(|(item, n)| format!("{item} × {n}")).collect();
            write!(f, "{}", counts.join(", "))?;
        }
        Ok(())
    }
}
