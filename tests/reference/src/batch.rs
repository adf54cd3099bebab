//! A valid batch, read where it lies.

use std::ops::Range;

use crate::ids::{Span, next_item};
use crate::normal::Normal;
use crate::record::{self, Bytes, Pass, Record};
use crate::refusal::BATCH;
use crate::view::{Starts, words};

pub const KIND: u8 = 4;
/// Kind, first and last item id, lengths of the needed and the learned knowledge, count of records.
pub const HEADER: usize = 61;

pub struct Batch<'a> {
    pub span: Span<'a>,
    pub needed: Normal<'a>,
    pub learned: Normal<'a>,
    pub records: &'a [Bytes],
}

impl<'a> Batch<'a> {
    /// Reads a batch, or refuses one that is not valid.
    #[inline(always)] // else it is copied from where it is returned
    pub fn read(bytes: &'a [u8], starts: &'a mut [Starts; 2]) -> Result<Self, u32> {
        Self::valid(bytes, starts).ok_or(BATCH)
    }

    #[inline(always)]
    fn valid(bytes: &'a [u8], [needed_starts, learned_starts]: &'a mut [Starts; 2]) -> Option<Self> {
        let Parts { span, needed, learned, records } = parts(bytes)?;
        let needed = Normal::read(needed, needed_starts)?;
        let learned = Normal::read(learned, learned_starts)?;
        let batch = Self { span, needed, learned, records };
        (batch.learned_is_inside() && batch.records_are_valid()).then_some(batch)
    }

    /// Whether the learned knowledge has no tick outside the span: each range that is not empty starts and ends inside.
    fn learned_is_inside(&self) -> bool {
        let first = words(self.span.first);
        let behind = next_item(self.span.last);
        let behind = behind.as_ref().map(words);
        let ranges = self.learned.view.ranges();
        ranges.iter().enumerate().filter(|(_, range)| range.index() != 0).all(|(place, range)| {
            let end = ranges.get(place + 1).map(|next| words(next.bound()));
            first <= words(range.bound()) && behind.is_none_or(|behind| end.is_some_and(|end| end <= behind))
        })
    }

    /// Whether the records are as they must be, inside the span, and not needed.
    fn records_are_valid(&self) -> bool {
        let mut needed = Pass::new(&self.needed.view);
        // Records rise, so the first and the last decide whether all are inside.
        let ends = [self.records.first(), self.records.last()];
        ends.into_iter().flatten().all(|record| self.span.contains(Record(record).item()))
            && record::are_valid(self.records, &self.learned.view)
            && self.records.iter().map(Record).all(|record| !needed.contains(record.item(), record.change()))
    }

    /// Where the learned knowledge stands in the batch.
    pub fn learned_place(&self) -> Range<usize> {
        let start = HEADER + self.needed.bytes.len();
        start..start + self.learned.bytes.len()
    }

    /// Where a record stands in the batch.
    pub fn record_place(&self, record: usize) -> Range<usize> {
        let start = self.learned_place().end + record::LENGTH * record;
        start..start + record::LENGTH
    }
}

struct Parts<'a> {
    span: Span<'a>,
    needed: &'a [u8],
    learned: &'a [u8],
    records: &'a [Bytes],
}

/// Span, knowledges and records of bytes that have the length and kind of a batch.
#[inline]
fn parts(bytes: &[u8]) -> Option<Parts<'_>> {
    let (header, rest) = bytes.split_first_chunk::<HEADER>()?;
    let number = |at: usize| header[at..].first_chunk().map(|number| u32::from_be_bytes(*number) as usize);
    let (needed, learned, count) = (number(49)?, number(53)?, number(57)?);
    let span = Span::new(&header[1..25], &header[25..49]).ok()?;
    if header[0] != KIND || count > record::RECORDS || rest.len() != needed + learned + record::LENGTH * count {
        return None;
    }
    let (needed, rest) = rest.split_at(needed);
    let (learned, records) = rest.split_at(learned);
    Some(Parts { span, needed, learned, records: records.as_chunks().0 })
}
