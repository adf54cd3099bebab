//! The ticks of a result as a table, and writing it in normal form.

use crate::refusal::{BUFFER, RESULT_RANGES};
use crate::view::{FIRST_ITEM, ItemId, REPLICAS, ReplicaId};
use crate::writer::Writer;

/// As many ranges as a knowledge has at most.
const RANGES: usize = 64;
/// As many replicas as two knowledges have together.
const COLUMNS: usize = 2 * REPLICAS;
/// As many rows as are looked at before there is a range too many.
const ROWS: usize = RANGES + 1;
/// The slots of the hash table in which rows that were seen before are looked up: more than there are rows.
const SLOTS: usize = 128;

/// The column of each key of a replica map.
pub type Columns = [u8; REPLICAS];

/// A row of ticks for each range, by rising bound, the first at 24 zero bytes; neighbours are never alike. Rows that are alike
/// stand in the table once. A column stands for a replica, by rising id.
pub struct Table {
    ids: [u128; COLUMNS],
    columns: usize,
    /// The unlike rows one after the other by first use, each as long as there are columns. There is none for the row that is
    /// all 0. Behind the last stands the one that is being filled.
    ticks: [u64; ROWS * COLUMNS],
    /// How many ticks of each row are not 0.
    counts: [u8; ROWS],
    rows: usize,
    /// The numbers of the rows from 1 on, where their hash says or next behind; 0 where there is none.
    slots: [u8; SLOTS],
    /// As many slots as are in use, a power of two, but one; and how far a hash is shifted to be one of them.
    last_slot: usize,
    shift: u32,
    bounds: [ItemId; RANGES],
    /// The number of each range's row, 0 for the one that is all 0.
    indices: [u8; RANGES],
    ranges: usize,
}

impl Table {
    pub const fn new() -> Self {
        Self {
            ids: [0; COLUMNS],
            columns: 0,
            ticks: [0; ROWS * COLUMNS],
            counts: [0; ROWS],
            rows: 0,
            slots: [0; SLOTS],
            last_slot: 0,
            shift: 0,
            bounds: [FIRST_ITEM; RANGES],
            indices: [0; RANGES],
            ranges: 0,
        }
    }

    /// Empties the table and gives it a column for each replica of the maps. So many rows will be looked up at most, or as many as
    /// there may be.
    pub fn clear<'a>(&mut self, replicas: impl Iterator<Item = &'a ReplicaId>, rows: usize) {
        let mut count = 0;
        for (place, id) in self.ids.iter_mut().zip(replicas) {
            *place = u128::from_be_bytes(*id);
            count += 1;
        }
        let ids = &mut self.ids[..count];
        if !ids.is_sorted_by(|a, b| a < b) {
            ids.sort_unstable();
            let mut columns = 0;
            for place in 0..count {
                if place == 0 || ids[place] != ids[place - 1] {
                    ids[columns] = ids[place];
                    columns += 1;
                }
            }
            count = columns;
        }
        self.columns = count;
        self.rows = 0;
        self.last_slot = (2 * rows).next_power_of_two().min(SLOTS) - 1;
        self.shift = self.last_slot.leading_zeros();
        self.slots[..=self.last_slot].fill(0);
        self.ranges = 0;
    }

    /// How many columns it has.
    pub fn width(&self) -> usize {
        self.columns
    }

    /// The column of each key of a map.
    pub fn columns(&self, replicas: &[ReplicaId]) -> Columns {
        let mut columns = [0; REPLICAS];
        let ids = &self.ids[..self.columns];
        for (key, (column, id)) in columns.iter_mut().zip(replicas).enumerate() {
            let id = u128::from_be_bytes(*id);
            // Maps mostly rise, so the same place is tried first.
            *column = if ids.get(key) == Some(&id) { key } else { ids.partition_point(|other| *other < id) } as u8;
        }
        columns
    }

    /// The number of the row whose ticks are filled in.
    #[inline]
    pub fn row(&mut self, fill: impl FnOnce(&mut Filling)) -> u8 {
        let (before, from_here) = self.ticks.split_at_mut(self.rows * self.columns);
        let row = &mut from_here[..self.columns];
        row.fill(0);
        let mut filling = Filling { row, count: 0, hash: 0 };
        fill(&mut filling);
        let Filling { row, count, hash } = filling;
        if count == 0 {
            return 0;
        }
        let mut slot = (hash.wrapping_mul(FACTOR) >> self.shift) as usize;
        loop {
            match self.slots[slot] {
                0 => break,
                seen if before[(seen as usize - 1) * self.columns..][..self.columns] == *row => return seen,
                _ => slot = (slot + 1) & self.last_slot,
            }
        }
        self.counts[self.rows] = count;
        self.rows += 1;
        self.slots[slot] = self.rows as u8;
        self.rows as u8
    }

    /// Adds the range of the items from a bound on, unless it is like the one before; refuses one too many. The first item id
    /// comes first of all.
    #[inline]
    pub fn push(&mut self, bound: &ItemId, row: u8) -> Result<(), u32> {
        if self.ranges == 0 || self.indices[self.ranges - 1] != row {
            *self.bounds.get_mut(self.ranges).ok_or(RESULT_RANGES)? = *bound;
            self.indices[self.ranges] = row;
            self.ranges += 1;
        }
        Ok(())
    }

    fn rows(&self) -> impl Iterator<Item = &[u64]> {
        (0..self.rows).map(|row| &self.ticks[row * self.columns..][..self.columns])
    }

    /// What is written for the table in normal form. No more replicas have a tick than a knowledge has at most.
    #[inline]
    pub fn plan(&self) -> Plan {
        let mut any = [0; COLUMNS];
        for row in self.rows() {
            for (any, tick) in any.iter_mut().zip(row) {
                *any |= *tick;
            }
        }
        let columns = any[..self.columns].iter().rev();
        let used = columns.fold(0u32, |used, any| (used << 1) | u32::from(*any != 0));
        let replicas = used.count_ones() as usize;
        let elements: usize = self.counts[..self.rows].iter().map(|count| *count as usize).sum();
        Plan { used, length: 77 + 16 * replicas + 8 * (self.rows + 1) + 12 * elements + 28 * self.ranges }
    }

    /// Writes the table in normal form to the front of a buffer and gives the length; or refuses a buffer that is too short, which
    /// then stays as it was.
    pub fn write(&self, out: &mut [u8]) -> Result<usize, u32> {
        let plan = self.plan();
        let Some(out) = out.get_mut(..plan.length) else { return Err(BUFFER) };
        self.write_planned(&plan, out);
        Ok(plan.length)
    }

    /// Writes the table to a buffer of the planned length.
    pub fn write_planned(&self, plan: &Plan, out: &mut [u8]) {
        let used = plan.used;
        let mut out = Writer::new(out);
        out.put([0, 0, 0, 5, 0, 0, 0, 0, 0, 0, 0, 1, 0, 0, 0, 0, 0, 0, 0, 5, 0, 0, 16]);
        out.u32(used.count_ones());
        let mut keys = [0; COLUMNS];
        let used = (0..self.columns).filter(|column| used >> column & 1 == 1);
        for (key, column) in (0u32..).zip(used) {
            out.put(self.ids[column].to_be_bytes());
            keys[column] = key;
        }

        out.put([0, 0, 0, 24, 0, 0, 16, 0, 0, 24, 0, 0, 1, 0, 0, 0, 21]);
        out.u32(self.rows as u32 + 1);
        out.put([0, 0, 0, 1, 0, 0, 0, 0]);
        for (row, count) in self.rows().zip(self.counts) {
            out.put([0, 0, 0, 1, 0, 0, 0, count]);
            let ticks = keys.iter().zip(row).filter(|(_, tick)| **tick != 0);
            for (element, (key, tick)) in out.many::<12>(count.into()).iter_mut().zip(ticks) {
                element[..4].copy_from_slice(&key.to_be_bytes());
                element[4..].copy_from_slice(&tick.to_be_bytes());
            }
        }

        out.put([0, 0, 0, 23, 0, 0, 0, 1, 0, 0, 0, 22]);
        out.u32(self.ranges as u32);
        let ranges = self.bounds.iter().zip(self.indices);
        for (range, (bound, index)) in out.many::<28>(self.ranges).iter_mut().zip(ranges) {
            range[..24].copy_from_slice(bound);
            range[24..].copy_from_slice(&u32::from(index).to_be_bytes());
        }
        out.put([0, 0, 0, 0, 0, 0, 0, 25, 1, 0, 0, 0, 0]);
        assert!(out.is_full(), "the length was computed");
    }
}

/// What is written for a table.
pub struct Plan {
    /// The columns that have a tick, as bits.
    used: u32,
    pub length: usize,
}

/// A row that is being filled; every tick is 0 at first.
pub struct Filling<'a> {
    row: &'a mut [u64],
    /// How many ticks are not 0.
    count: u8,
    /// The sum of the ticks, each times the factor of its column.
    hash: u64,
}

impl Filling<'_> {
    /// Sets the ticks of columns that have none yet.
    #[inline]
    pub fn set(&mut self, ticks: impl Iterator<Item = (usize, u64)>) {
        let (mut count, mut hash) = (self.count, self.hash);
        for (column, tick) in ticks {
            count += u8::from(tick != 0);
            hash = hash.wrapping_add(tick.wrapping_mul(FACTORS[column % COLUMNS]));
            self.row[column] = tick;
        }
        (self.count, self.hash) = (count, hash);
    }

    /// Raises the ticks of columns to these.
    #[inline]
    pub fn raise(&mut self, ticks: impl Iterator<Item = (usize, u64)>) {
        let (mut count, mut hash) = (self.count, self.hash);
        for (column, tick) in ticks {
            let place = &mut self.row[column];
            if tick > *place {
                count += u8::from(*place == 0);
                hash = hash.wrapping_add((tick - *place).wrapping_mul(FACTORS[column % COLUMNS]));
                *place = tick;
            }
        }
        (self.count, self.hash) = (count, hash);
    }
}

/// An odd number whose bits are well mixed, and others, one for each column.
const FACTOR: u64 = 0x9e37_79b9_7f4a_7c15;
const FACTORS: [u64; COLUMNS] = {
    let mut factors = [0; COLUMNS];
    let mut column = 0;
    while column < COLUMNS {
        factors[column] = (column as u64 + 1).wrapping_mul(FACTOR) | 1;
        column += 1;
    }
    factors
};
