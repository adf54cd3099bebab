//! Normalise, merge and project: the calls that write a knowledge, always in normal form.

use std::cell::RefCell;

use crate::forward::{self, Forward};
use crate::ids::{Span, next_item};
use crate::refusal::RESULT_REPLICAS;
use crate::table::{Columns, Table};
use crate::view::{FIRST_ITEM, REPLICAS, Starts, VECTORS, View};

thread_local! {
    /// The table that every call fills anew. It is too large to be cleared for each.
    pub static TABLE: RefCell<Table> = const { RefCell::new(Table::new()) };
}

/// Writes the normal form of a knowledge to the front of a buffer and gives its length.
pub fn normalise(knowledge: &[u8], out: &mut [u8]) -> Result<usize, u32> {
    let mut starts = Starts::new();
    let knowledge = View::read(knowledge, &mut starts)?;
    written(&knowledge, Span::ALL, out)
}

/// Writes a knowledge with its known ticks inside a span, and 0 outside, to the front of a buffer and gives its length.
pub fn project(knowledge: &[u8], first_id: &[u8], last_id: &[u8], out: &mut [u8]) -> Result<usize, u32> {
    let mut starts = Starts::new();
    let knowledge = View::read(knowledge, &mut starts)?;
    let span = Span::new(first_id, last_id)?;
    written(&knowledge, span, out)
}

/// Writes a knowledge with the larger known tick of two everywhere to the front of a buffer and gives its length.
pub fn merge(first: &[u8], second: &[u8], out: &mut [u8]) -> Result<usize, u32> {
    let (mut first_starts, mut second_starts) = (Starts::new(), Starts::new());
    let first = View::read(first, &mut first_starts)?;
    let second = View::read(second, &mut second_starts)?;
    TABLE.with_borrow_mut(|table| {
        merged(table, &first, &second)?;
        table.write(out)
    })
}

/// Writes the known ticks of a knowledge inside a span.
fn written(knowledge: &View, span: Span, out: &mut [u8]) -> Result<usize, u32> {
    TABLE.with_borrow_mut(|table| {
        projected(table, knowledge, span)?;
        table.write(out)
    })
}

/// Fills a table with the known ticks of a knowledge inside a span.
#[inline]
pub fn projected(table: &mut Table, knowledge: &View, span: Span) -> Result<(), u32> {
    table.clear(knowledge.replicas().iter(), knowledge.ranges().count() + 1);
    let columns = table.columns(knowledge.replicas());
    let mut cursor = Forward::new(knowledge.ranges(), span);
    if *span.first != FIRST_ITEM {
        table.push(&FIRST_ITEM, 0)?;
    }
    // The row of each vector that was needed before; the first is all 0.
    const UNKNOWN: u8 = u8::MAX;
    let mut rows = [UNKNOWN; VECTORS];
    rows[0] = 0;
    let mut bound = Some(span.first);
    while let Some(from) = bound {
        let index = cursor.index();
        if rows[index] == UNKNOWN {
            rows[index] = table.row(|row| row.set(ticks(knowledge, index, &columns)));
        }
        table.push(from, rows[index])?;
        bound = cursor.next_bound();
        cursor.step();
    }
    if let Some(behind) = next_item(span.last) {
        table.push(&behind, 0)?;
    }
    Ok(())
}

/// Fills a table with the larger known ticks of two knowledges.
#[inline(never)] // the reading of both would take the registers
pub fn merged(table: &mut Table, first: &View, second: &View) -> Result<(), u32> {
    table.clear(first.replicas().iter().chain(second.replicas()), first.ranges().count() + second.ranges().count() + 1);
    let first_columns = table.columns(first.replicas());
    let second_columns = table.columns(second.replicas());
    if table.width() > REPLICAS {
        // A replica has a tick in the result where it has one in either, so it is refused before a row is filled.
        let used = used(first, &first_columns) | used(second, &second_columns);
        if used.count_ones() as usize > REPLICAS {
            return Err(RESULT_REPLICAS);
        }
    }
    let mut left = Forward::new(first.ranges(), Span::ALL);
    let mut right = Forward::new(second.ranges(), Span::ALL);
    let mut bound = Some(&FIRST_ITEM);
    while let Some(from) = bound {
        let row = table.row(|row| {
            row.set(ticks(first, left.index(), &first_columns));
            row.raise(ticks(second, right.index(), &second_columns));
        });
        table.push(from, row)?;
        bound = forward::next(&left, &right).and_then(|order| {
            let bound = if order.is_le() { left.next_bound() } else { right.next_bound() };
            if order.is_le() {
                left.step();
            }
            if order.is_ge() {
                right.step();
            }
            bound
        });
    }
    Ok(())
}

/// The columns that have a tick in some range, as bits.
fn used(knowledge: &View, columns: &Columns) -> u32 {
    let ticks = knowledge.ranges().iter().flat_map(|range| ticks(knowledge, range.index(), columns));
    ticks.fold(0, |used, (column, tick)| used | u32::from(tick != 0) << column)
}

/// The ticks of a vector by column.
#[inline]
pub fn ticks(knowledge: &View, index: usize, columns: &Columns) -> impl Iterator<Item = (usize, u64)> {
    knowledge.elements(index).map(|element| (columns[element.key() % REPLICAS] as usize, element.tick()))
}
