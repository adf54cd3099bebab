//! Compare: which of two knowledges is ahead, over all ids, and where each that lacks something does so first.
//!
//! Below all bounds nothing is known, and known ticks change at bounds only. So a cursor over the ranges of each goes from
//! bound to bound, and at each stop a row of the first's ticks is compared with a row of the second's.

use crate::forward::{self, Forward};
use crate::refusal::BUFFER;
use crate::view::{ItemId, REPLICAS, ReplicaId, Starts, View};
use crate::writer::Writer;

/// What is written for a knowledge that lacks something: an item id, a replica id and two ticks.
const PLACE: usize = 24 + 16 + 8 + 8;

/// Writes, for each knowledge that lacks something, the lowest item id, and there the lowest replica id, for which its tick
/// is the smaller, with both ticks. Gives the order and the length. Bit 0 of the order says that the first lacks something,
/// bit 1 that the second does.
pub fn compare(first: &[u8], second: &[u8], out: &mut [u8]) -> Result<(u32, usize), u32> {
    let (mut first_starts, mut second_starts) = (Starts::new(), Starts::new());
    let first = View::read(first, &mut first_starts)?;
    let second = View::read(second, &mut second_starts)?;
    let lacks = lacks(&first, &second);
    let length = PLACE * lacks.iter().flatten().count();
    let Some(out) = out.get_mut(..length) else { return Err(BUFFER) };
    let mut out = Writer::new(out);
    for Lack { item, replica, ticks } in lacks.iter().flatten() {
        out.put(**item);
        out.put(*replica);
        ticks.iter().for_each(|tick| out.put(tick.to_be_bytes()));
    }
    let [first, second] = lacks.map(|lack| u32::from(lack.is_some()));
    Ok((first | second << 1, length))
}

/// A place where the tick of one knowledge is smaller than that of the other: the ticks of the first and of the second.
struct Lack<'a> {
    item: &'a ItemId,
    replica: ReplicaId,
    ticks: [u64; 2],
}

/// Where the first lacks something first, and where the second does.
#[inline(never)] // the reading of both would take the registers
fn lacks<'a>(first: &View<'a>, second: &View<'a>) -> [Option<Lack<'a>>; 2] {
    let mut lacks = [None, None];
    let columns = Columns::new(first.replicas(), second.replicas());
    let mut rows = Rows::new(columns.count);
    let mut left = Forward::at_the_start(first.ranges());
    let mut right = Forward::at_the_start(second.ranges());
    while let Some(nearer) = forward::next(&left, &right) {
        let bound = if nearer.is_le() { left.next_bound() } else { right.next_bound() };
        if nearer.is_le() {
            left.step();
            rows.load(0, first, left.index(), &columns.of_first);
        }
        if nearer.is_ge() {
            right.step();
            rows.load(1, second, right.index(), &columns.of_second);
        }
        for (side, smaller) in rows.smaller().into_iter().enumerate() {
            if smaller && lacks[side].is_none() {
                let (column, ticks) = rows.first_smaller(side);
                let replica = columns.ids[column].to_be_bytes();
                lacks[side] = bound.map(|item| Lack { item, replica, ticks });
            }
        }
        if let [Some(_), Some(_)] = lacks {
            break;
        }
    }
    lacks
}

/// As many replicas as two knowledges have together.
const COLUMNS: usize = 2 * REPLICAS;

/// A column for each replica of two maps, by rising id.
struct Columns {
    ids: [u128; COLUMNS],
    count: usize,
    /// The column of each key.
    of_first: [u8; REPLICAS],
    of_second: [u8; REPLICAS],
}

impl Columns {
    fn new(first: &[ReplicaId], second: &[ReplicaId]) -> Self {
        let mut ids = [0; COLUMNS];
        // Two maps are often alike, so an id at the same place in both is taken once.
        let others = second.iter().enumerate().filter(|(key, id)| first.get(*key) != Some(id));
        let mut count = 0;
        for id in first.iter().chain(others.map(|(_, id)| id)) {
            ids[count] = u128::from_be_bytes(*id);
            count += 1;
        }
        if !ids[..count].is_sorted_by(|a, b| a < b) {
            ids[..count].sort_unstable();
            let mut distinct = 0;
            for place in 0..count {
                if place == 0 || ids[place] != ids[place - 1] {
                    ids[distinct] = ids[place];
                    distinct += 1;
                }
            }
            count = distinct;
        }
        let [of_first, of_second] = [first, second].map(|map| columns(&ids[..count], map));
        Self { ids, count, of_first, of_second }
    }
}

/// The column of each key of a map, whose ids are all among these.
fn columns(ids: &[u128], map: &[ReplicaId]) -> [u8; REPLICAS] {
    let mut columns = [0; REPLICAS];
    for (key, (column, id)) in columns.iter_mut().zip(map).enumerate() {
        let id = u128::from_be_bytes(*id);
        // Maps mostly rise, so the same place is tried first.
        *column = if ids.get(key) == Some(&id) { key } else { ids.partition_point(|other| *other < id) } as u8;
    }
    columns
}

/// The ticks of the first and of the second knowledge by column, with 0 where there is none.
struct Rows {
    ticks: [[u64; COLUMNS]; 2],
    count: usize,
}

impl Rows {
    #[inline]
    fn new(count: usize) -> Self {
        Self { ticks: [[0; COLUMNS]; 2], count }
    }

    /// Takes over the ticks of a vector.
    #[inline(always)] // it is called at every bound
    fn load(&mut self, side: usize, knowledge: &View, index: usize, columns: &[u8; REPLICAS]) {
        let row = &mut self.ticks[side];
        row[..self.count].fill(0);
        for element in knowledge.elements(index) {
            row[columns[element.key() % REPLICAS] as usize % COLUMNS] = element.tick();
        }
    }

    /// Whether some tick of the first is smaller than the second's, and whether some tick of the second is.
    #[inline]
    fn smaller(&self) -> [bool; 2] {
        let [first, second] = &self.ticks;
        let mut signs = [0; 2];
        for (first, second) in first[..self.count].iter().zip(second) {
            // Ticks are at most 2^63 - 1, so the top bit of a difference is set where it is below 0.
            signs[0] |= first.wrapping_sub(*second);
            signs[1] |= second.wrapping_sub(*first);
        }
        signs.map(|sign| sign >> 63 == 1)
    }

    /// The first column where one side's tick is the smaller, and both ticks there.
    fn first_smaller(&self, side: usize) -> (usize, [u64; 2]) {
        let [one, other] = [self.ticks[side], self.ticks[1 - side]];
        let column = one.iter().zip(other).position(|(one, other)| *one < other).expect("there is one");
        (column, [self.ticks[0][column], self.ticks[1][column]])
    }
}
