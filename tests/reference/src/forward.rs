//! Going through the ranges of one or two knowledges from bound to bound.

use std::cmp::Ordering;

use crate::ids::Span;
use crate::view::{ItemId, Ranges, words};

/// A cursor over the ranges of a knowledge up to an item. It only goes forward.
pub struct Forward<'a> {
    ranges: Ranges<'a>,
    /// How many ranges start at or below where it stands.
    passed: usize,
}

impl<'a> Forward<'a> {
    /// Stands at the first item of a span and goes as far as the last.
    #[inline]
    pub fn new(ranges: Ranges<'a>, span: Span) -> Self {
        Self { ranges: ranges.first(ranges.up_to(span.last)), passed: ranges.up_to(span.first) }
    }

    /// Stands before the first item and goes as far as there are any.
    #[inline]
    pub fn at_the_start(ranges: Ranges<'a>) -> Self {
        Self { ranges, passed: 0 }
    }

    /// Goes on to an item that is not before where it stands.
    #[inline]
    pub fn advance(&mut self, item: &ItemId) {
        let item = words(item);
        while self.next_bound().is_some_and(|bound| words(bound) <= item) {
            self.step();
        }
    }

    /// The index of the vector where it stands; below the first range that is the empty vector.
    #[inline]
    pub fn index(&self) -> usize {
        self.passed.checked_sub(1).and_then(|place| self.ranges.get(place)).map_or(0, |range| range.index())
    }

    /// The bound of the next range.
    #[inline]
    pub fn next_bound(&self) -> Option<&'a ItemId> {
        self.ranges.get(self.passed).map(|range| range.bound())
    }

    #[inline]
    pub fn step(&mut self) {
        self.passed += 1;
    }
}

/// Which of two cursors comes to its next bound first; none where both have come to their end.
#[inline]
pub fn next(first: &Forward, second: &Forward) -> Option<Ordering> {
    match (first.next_bound(), second.next_bound()) {
        (None, None) => None,
        (Some(_), None) => Some(Ordering::Less),
        (None, Some(_)) => Some(Ordering::Greater),
        (Some(first), Some(second)) => Some(words(first).cmp(&words(second))),
    }
}
