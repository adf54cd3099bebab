//! Make and apply: the calls by which a replica hands on what it knows, and takes it in.

use std::cell::RefCell;

use crate::batch::{self, Batch};
use crate::changes::{header, room};
use crate::cover::covers;
use crate::ids::Span;
use crate::normal::Normal;
use crate::operations::{TABLE, merged, projected};
use crate::record::{self, Bytes, Pass, RECORDS, Record};
use crate::refusal::{BUFFER, NOT_COVERED, RESULT_RECORDS};
use crate::store::Store;
use crate::table::{Plan, Table};
use crate::view::{Starts, View};
use crate::writer::Writer;

thread_local! {
    /// The table of the needed knowledge, beside that of the learned one.
    static NEEDED: RefCell<Table> = const { RefCell::new(Table::new()) };
}

/// A knowledge that is to be written: one that is there already, or a table.
enum Part<'a> {
    Copy(&'a [u8]),
    Table(&'a Table, Plan),
}

impl Part<'_> {
    fn length(&self) -> usize {
        match self {
            Self::Copy(bytes) => bytes.len(),
            Self::Table(_, plan) => plan.length,
        }
    }

    fn write(&self, out: &mut [u8]) {
        match self {
            Self::Copy(bytes) => out.copy_from_slice(bytes),
            Self::Table(table, plan) => table.write_planned(plan, out),
        }
    }
}

/// Writes the batch of what the store knows in a span, for a replica with a knowledge, and gives its length.
pub fn make(store: &[u8], knowledge: &[u8], first_id: &[u8], last_id: &[u8], out: &mut [u8]) -> Result<usize, u32> {
    let (mut starts, mut knowledge_starts) = (Starts::new(), Starts::new());
    let store = Store::read(store, &mut starts)?;
    // Knowledge that was written by a call is in normal form already.
    if let Some(normal) = Normal::read(knowledge, &mut knowledge_starts) {
        let span = Span::new(first_id, last_id)?;
        return made(&store, Part::Copy(knowledge), &normal.view, span, out);
    }
    let view = View::read(knowledge, &mut knowledge_starts)?;
    let span = Span::new(first_id, last_id)?;
    NEEDED.with_borrow_mut(|table| {
        projected(table, &view, Span::ALL)?;
        let plan = table.plan();
        made(&store, Part::Table(table, plan), &view, span, out)
    })
}

/// Writes the batch with a needed knowledge, whose ticks are looked up in a view of it.
fn made(store: &Store, needed: Part, view: &View, span: Span, out: &mut [u8]) -> Result<usize, u32> {
    if *span.first == *Span::ALL.first && *span.last == *Span::ALL.last {
        return made_with(store, needed, Part::Copy(store.knowledge.bytes), view, span, out);
    }
    TABLE.with_borrow_mut(|table| {
        projected(table, &store.knowledge.view, span)?;
        let plan = table.plan();
        made_with(store, needed, Part::Table(table, plan), view, span, out)
    })
}

fn made_with(
    store: &Store,
    needed: Part,
    learned: Part,
    view: &View,
    span: Span,
    out: &mut [u8],
) -> Result<usize, u32> {
    let mut records = Records::new();
    let mut pass = Pass::new(view);
    let start = record::find(store.records, span.first).unwrap_or_else(|place| place);
    let end = record::find(store.records, span.last).map_or_else(|place| place, |place| place + 1);
    for record in &store.records[start..end] {
        if !pass.contains(Record(record).item(), Record(record).change()) {
            records.push(record)?;
        }
    }
    let knowledges = needed.length() + learned.length();
    let length = batch::HEADER + knowledges + record::LENGTH * records.count;
    let out = &mut Writer::new(out.get_mut(..length).ok_or(BUFFER)?);
    out.put([batch::KIND]);
    out.put(*span.first);
    out.put(*span.last);
    out.u32(needed.length() as u32);
    out.u32(learned.length() as u32);
    out.u32(records.count as u32);
    needed.write(out.bytes(needed.length()));
    learned.write(out.bytes(learned.length()));
    records.write(out);
    Ok(length)
}

/// Writes the store after a batch and gives its length.
pub fn apply(store: &[u8], batch: &[u8], out: &mut [u8]) -> Result<usize, u32> {
    let (mut starts, mut batch_starts) = (Starts::new(), [Starts::new(), Starts::new()]);
    let store = Store::read(store, &mut starts)?;
    let batch = Batch::read(batch, &mut batch_starts)?;
    if !covers(&store.knowledge.view, &batch.needed.view, batch.span) || is_ahead(&store, &batch.learned) {
        return Err(NOT_COVERED);
    }
    TABLE.with_borrow_mut(|table| {
        merged(table, &store.knowledge.view, &batch.learned.view)?;
        let plan = table.plan();
        let records = Records::joined(store.records, batch.records)?;
        let (length, out) = room(out, plan.length, records.count)?;
        let out = &mut header(out, store.own, plan.length, records.count);
        table.write_planned(&plan, out.bytes(plan.length));
        records.write(out);
        Ok(length)
    })
}

/// Whether a knowledge has a later tick of the store's own replica than the store.
fn is_ahead(store: &Store, learned: &Normal) -> bool {
    let key = learned.view.replicas().iter().position(|id| id == store.own);
    key.is_some_and(|key| learned.ticks(key).any(|tick| tick > store.own_tick))
}

/// The records of a result, where they lie.
struct Records<'a> {
    all: [&'a Bytes; RECORDS],
    count: usize,
}

impl<'a> Records<'a> {
    fn new() -> Self {
        Self { all: [&[0; record::LENGTH]; RECORDS], count: 0 }
    }

    /// The winners among the records of a store and a batch.
    fn joined(mut held: &'a [Bytes], mut brought: &'a [Bytes]) -> Result<Self, u32> {
        let mut records = Self::new();
        while let ([first, held_rest @ ..], [second, brought_rest @ ..]) = (held, brought) {
            let order = Record(first).item().cmp(Record(second).item());
            let from_batch = order.is_gt() || (order.is_eq() && Record(second).wins(Record(first)));
            records.push(if from_batch { second } else { first })?;
            if order.is_le() {
                held = held_rest;
            }
            if order.is_ge() {
                brought = brought_rest;
            }
        }
        for record in held.iter().chain(brought) {
            records.push(record)?;
        }
        Ok(records)
    }

    #[inline]
    fn push(&mut self, record: &'a Bytes) -> Result<(), u32> {
        *self.all.get_mut(self.count).ok_or(RESULT_RECORDS)? = record;
        self.count += 1;
        Ok(())
    }

    fn write(&self, out: &mut Writer) {
        let places = out.many(self.count);
        for (place, record) in places.iter_mut().zip(self.all) {
            *place = *record;
        }
    }
}
