//! The reader of knowledge bytes inside a store or a batch, which must be in normal form. It says only that they are not: no
//! fault of theirs has a number of its own.

use crate::view::{Element, REPLICAS, Range, ReplicaId, Starts, VECTORS, View, words};

const RANGES: usize = 64;
const LARGEST_TICK: u64 = i64::MAX as u64;

/// The fixed fields up to the count of replicas, from there to the count of vectors, and so on.
const OPENING: [u8; 23] = [0, 0, 0, 5, 0, 0, 0, 0, 0, 0, 0, 1, 0, 0, 0, 0, 0, 0, 0, 5, 0, 0, 16];
const BEFORE_VECTORS: [u8; 17] = [0, 0, 0, 24, 0, 0, 16, 0, 0, 24, 0, 0, 1, 0, 0, 0, 21];
const EMPTY_VECTOR: [u8; 8] = [0, 0, 0, 1, 0, 0, 0, 0];
const VECTOR: [u8; 4] = [0, 0, 0, 1];
const BEFORE_RANGES: [u8; 12] = [0, 0, 0, 23, 0, 0, 0, 1, 0, 0, 0, 22];
const CLOSING: [u8; 13] = [0, 0, 0, 0, 0, 0, 0, 25, 1, 0, 0, 0, 0];

/// A knowledge in normal form.
pub struct Normal<'a> {
    pub bytes: &'a [u8],
    pub view: View<'a>,
    /// How many vectors it has.
    pub vectors: usize,
    /// The largest tick, 0 where there is none.
    pub largest: u64,
}

impl<'a> Normal<'a> {
    /// Reads a knowledge; none where the bytes are not one in normal form.
    #[inline(always)] // else it is copied from where it is returned
    pub fn read(bytes: &'a [u8], starts: &'a mut Starts) -> Option<Self> {
        let rest = bytes.strip_prefix(&OPENING)?;
        let (r, rest) = count(rest, 0, REPLICAS)?;
        starts.replicas = rest.len();
        let rest = replicas(rest, r)?.strip_prefix(&BEFORE_VECTORS)?;

        let (v, rest) = count(rest, 1, VECTORS)?;
        let rest = rest.strip_prefix(&EMPTY_VECTOR)?;
        let (vectors, rest) = vectors(bytes, rest, r, v, starts)?;
        if vectors.used != (1 << r) - 1 {
            return None;
        }

        let (g, rest) = count(rest.strip_prefix(&BEFORE_RANGES)?, 1, RANGES)?;
        starts.ranges = rest.len();
        if ranges(rest, g, v)? != CLOSING {
            return None;
        }
        Some(Self { bytes, view: View::new(bytes, r, g, starts), vectors: v, largest: vectors.largest })
    }

    /// The tick of a replica in each vector but the empty one.
    #[inline]
    pub fn ticks(&self, key: usize) -> impl Iterator<Item = u64> {
        (1..self.vectors).map(move |index| self.view.tick(index, key))
    }

    /// Whether a range has the empty vector.
    #[inline]
    pub fn has_empty_range(&self) -> bool {
        self.view.ranges().iter().any(|range| range.index() == 0)
    }
}

/// A count within its limits, and the bytes behind it.
#[inline]
fn count(bytes: &[u8], least: usize, most: usize) -> Option<(usize, &[u8])> {
    let (count, rest) = bytes.split_first_chunk()?;
    let count = u32::from_be_bytes(*count) as usize;
    (least <= count && count <= most).then_some((count, rest))
}

/// Reads the replica ids, which rise; gives the bytes behind them.
#[inline]
fn replicas(bytes: &[u8], r: usize) -> Option<&[u8]> {
    let (ids, rest) = bytes.split_at_checked(16 * r)?;
    let ids: &[ReplicaId] = ids.as_chunks().0;
    ids.is_sorted_by(|a, b| u128::from_be_bytes(*a) < u128::from_be_bytes(*b)).then_some(rest)
}

/// What the vectors have in them.
struct Vectors {
    /// The keys that occurred, as bits.
    used: u32,
    largest: u64,
}

/// Reads the vectors but the empty one, no two alike; gives the bytes behind them.
#[inline]
fn vectors<'a>(whole: &[u8], bytes: &'a [u8], r: usize, v: usize, starts: &mut Starts) -> Option<(Vectors, &'a [u8])> {
    let mut all = Vectors { used: 0, largest: 0 };
    // The numbers of the vectors, where their hash says or next behind; 0 where there is none.
    let mut slots = [0; SLOTS];
    let mut rest = bytes;
    for number in 1..v {
        rest = rest.strip_prefix(&VECTOR)?;
        let left = rest.len();
        let (n, _) = count(rest, 1, r)?;
        let (vector, behind) = rest.split_at_checked(4 + 12 * n)?;
        let hash = all.add(vector[4..].as_chunks().0, r)?;
        let mut slot = (hash >> (64 - SLOTS.ilog2())) as usize;
        while slots[slot] != 0 {
            let seen = starts.elements[slots[slot] as usize] as usize;
            if whole[whole.len() - seen..].starts_with(vector) {
                return None;
            }
            slot = (slot + 1) % SLOTS;
        }
        slots[slot] = number as u8;
        starts.elements[number] = left as u16;
        rest = behind;
    }
    Some((all, rest))
}

/// More than there are vectors.
const SLOTS: usize = 128;
/// An odd number whose bits are well mixed, and others, one for each key.
const FACTOR: u64 = 0x9e37_79b9_7f4a_7c15;
const FACTORS: [u64; REPLICAS] = {
    let mut factors = [0; REPLICAS];
    let mut key = 0;
    while key < REPLICAS {
        factors[key] = (key as u64 + 1).wrapping_mul(FACTOR) | 1;
        key += 1;
    }
    factors
};

impl Vectors {
    /// Takes in a vector, whose elements rise by key and have ticks of 1 or more; gives a hash of it.
    #[inline]
    fn add(&mut self, elements: &[[u8; 12]], r: usize) -> Option<u64> {
        let (mut least, mut hash, mut used, mut largest) = (0, 0u64, self.used, self.largest);
        for element in elements.iter().map(Element::new) {
            let (key, tick) = (element.key(), element.tick());
            if key < least || key >= r || tick.wrapping_sub(1) >= LARGEST_TICK {
                return None;
            }
            least = key + 1;
            used |= 1 << key;
            largest = largest.max(tick);
            hash = hash.wrapping_add(tick.wrapping_mul(FACTORS[key % REPLICAS]));
        }
        (self.used, self.largest) = (used, largest);
        Some(hash.wrapping_mul(FACTOR))
    }
}

/// Reads the ranges: the first at 24 zero bytes, neighbours with unlike vectors, vectors in order of first use and each used.
/// Gives the bytes behind them.
#[inline]
fn ranges(bytes: &[u8], g: usize, v: usize) -> Option<&[u8]> {
    let (ranges, rest) = bytes.split_at_checked(28 * g)?;
    let (mut bound_before, mut index_before, mut unused) = ((0, 0), VECTORS, 1);
    for (place, range) in ranges.as_chunks().0.iter().map(Range::new).enumerate() {
        let (bound, index) = (words(range.bound()), range.index());
        let rises = if place == 0 { bound == (0, 0) } else { bound > bound_before };
        if !rises || index == index_before || index > unused {
            return None;
        }
        unused += usize::from(index == unused);
        (bound_before, index_before) = (bound, index);
    }
    (unused == v).then_some(rest)
}
