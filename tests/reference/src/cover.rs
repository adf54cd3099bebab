//! Cover: one knowledge against another throughout a span.
//!
//! Known ticks change at the bounds of the two knowledges only. A cursor over the ranges of each goes forward from bound
//! to bound, and at each stop a row of the first's ticks is compared with the elements of the second's vector.

use crate::forward::{self, Forward};
use crate::ids::Span;
use crate::view::{REPLICAS, Starts, View};

/// Whether the first knowledge knows at least as much as the second for every item of the span and every replica.
pub fn cover(first: &[u8], second: &[u8], first_id: &[u8], last_id: &[u8]) -> Result<bool, u32> {
    let (mut first_starts, mut second_starts) = (Starts::new(), Starts::new());
    let first = View::read(first, &mut first_starts)?;
    let second = View::read(second, &mut second_starts)?;
    let span = Span::new(first_id, last_id)?;
    Ok(covers(&first, &second, span))
}

/// Whether the first knows at least as much as the second throughout a span.
pub fn covers(first: &View, second: &View, span: Span) -> bool {
    let columns = Columns::new(first, second);
    let mut upper = Forward::new(first.ranges(), span);
    let mut lower = Forward::new(second.ranges(), span);
    let mut row = Row::new();
    row.load(first, upper.index());
    loop {
        if !second.elements(lower.index()).all(|element| element.tick() <= row.tick(columns.of(element.key()))) {
            return false;
        }
        let Some(order) = forward::next(&upper, &lower) else { return true };
        if order.is_ge() {
            lower.step();
        }
        if order.is_le() {
            upper.step();
            row.load(first, upper.index());
        }
    }
}

/// The key in one map of each replica of another.
struct Columns([u8; REPLICAS]);

/// The key of a replica that is not in the map.
const ABSENT: usize = REPLICAS;

impl Columns {
    fn new(first: &View, second: &View) -> Self {
        let mut columns = [0; REPLICAS];
        for (key, (column, id)) in columns.iter_mut().zip(second.replicas()).enumerate() {
            // Two maps are often alike, so the same place is tried first.
            *column = if first.replicas().get(key) == Some(id) {
                key as u8
            } else {
                first.replicas().iter().position(|other| other == id).unwrap_or(ABSENT) as u8
            };
        }
        Self(columns)
    }

    #[inline]
    fn of(&self, key: usize) -> usize {
        self.0[key % REPLICAS] as usize
    }
}

/// The ticks of a vector by replica key, with 0 for every key that has no element, and for those that no replica has.
struct Row([u64; 2 * REPLICAS]);

impl Row {
    #[inline]
    fn new() -> Self {
        Self([0; 2 * REPLICAS])
    }

    /// Takes over the ticks of a vector.
    #[inline]
    fn load(&mut self, knowledge: &View, index: usize) {
        self.0[..REPLICAS].fill(0);
        for element in knowledge.elements(index) {
            self.0[element.key() % REPLICAS] = element.tick();
        }
    }

    #[inline]
    fn tick(&self, key: usize) -> u64 {
        self.0[key % (2 * REPLICAS)]
    }
}
