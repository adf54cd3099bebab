//! The reader of knowledge bytes.

use std::ops::RangeInclusive;

use crate::cursor::Cursor;
use crate::refusal::{BOUND, COUNT, FIRST_VECTOR, INDEX, KEY, LEFT_OVER, REPLICA_ID, TICK};
use crate::view::{ItemId, words};

const REPLICAS: RangeInclusive<u32> = 0..=16;
const VECTORS: RangeInclusive<u32> = 1..=65;
const RANGES: RangeInclusive<u32> = 1..=64;
const LARGEST_TICK: u64 = i64::MAX as u64;

/// The sizes of a knowledge, as they stand in its bytes.
#[derive(Clone, Copy, Debug, PartialEq, Eq)]
pub struct Sizes {
    /// Replicas in the map.
    pub r: u64,
    /// Clock vectors.
    pub v: u64,
    /// Elements of all clock vectors together.
    pub e: u64,
    /// Ranges.
    pub g: u64,
}

/// Reads a knowledge from the front and gives its sizes, or the number of the first fault.
pub fn check(bytes: &[u8]) -> Result<Sizes, u32> {
    read(bytes, &mut ())
}

/// Is told, while a knowledge is read, how many bytes are left from a part of it on. What keeps none of it costs no time.
pub(crate) trait Places {
    fn replica_ids(&mut self, _left: usize) {}
    fn elements(&mut self, _vector: u32, _left: usize) {}
    fn ranges(&mut self, _left: usize) {}
}

impl Places for () {}

/// Reads a knowledge from the front and gives its sizes, or the number of the first fault.
#[inline(always)]
pub(crate) fn read(bytes: &[u8], places: &mut impl Places) -> Result<Sizes, u32> {
    let mut cursor = Cursor::new(bytes);
    let cursor = &mut cursor;

    cursor.fixed(5u32.to_be_bytes())?;
    cursor.fixed(0u32.to_be_bytes())?;
    cursor.fixed(1u32.to_be_bytes())?;
    cursor.fixed(0u32.to_be_bytes())?;

    let r = replica_map(cursor, places)?;

    cursor.fixed(24u32.to_be_bytes())?;
    cursor.fixed([0])?;
    cursor.fixed(16u16.to_be_bytes())?;
    cursor.fixed([0])?;
    cursor.fixed(24u16.to_be_bytes())?;
    cursor.fixed([0])?;
    cursor.fixed(1u16.to_be_bytes())?;

    let (v, e) = clock_vectors(cursor, r, places)?;
    let g = ranges(cursor, v, places)?;

    cursor.fixed(0u32.to_be_bytes())?;
    cursor.fixed(25u32.to_be_bytes())?;
    cursor.fixed([1])?;
    cursor.fixed(0u32.to_be_bytes())?;

    if !cursor.rest().is_empty() {
        return Err(LEFT_OVER);
    }
    Ok(Sizes { r: r.into(), v: v.into(), e: e.into(), g: g.into() })
}

/// A count that must lie within its limits.
fn count(cursor: &mut Cursor, limits: RangeInclusive<u32>) -> Result<u32, u32> {
    let count = cursor.u32()?;
    if limits.contains(&count) { Ok(count) } else { Err(COUNT) }
}

/// The replica map; gives the count of replicas.
#[inline(always)] // keeps the cursor in registers
fn replica_map(cursor: &mut Cursor, places: &mut impl Places) -> Result<u32, u32> {
    cursor.fixed(5u32.to_be_bytes())?;
    cursor.fixed([0])?;
    cursor.fixed(16u16.to_be_bytes())?;
    let r = count(cursor, REPLICAS)?;

    places.replica_ids(cursor.rest().len());
    let (ids, _) = cursor.rest().as_chunks::<16>();
    for before in 0..r as usize {
        let id = cursor.take()?;
        if ids[..before].contains(id) {
            return Err(REPLICA_ID);
        }
    }
    Ok(r)
}

/// The clock vectors; gives the count of vectors and the count of all their elements.
#[inline(always)] // keeps the cursor in registers
fn clock_vectors(cursor: &mut Cursor, r: u32, places: &mut impl Places) -> Result<(u32, u32), u32> {
    cursor.fixed(21u32.to_be_bytes())?;
    let v = count(cursor, VECTORS)?;

    cursor.fixed(1u32.to_be_bytes())?;
    if cursor.u32()? != 0 {
        return Err(FIRST_VECTOR);
    }

    let mut e = 0;
    for vector in 1..v {
        cursor.fixed(1u32.to_be_bytes())?;
        places.elements(vector, cursor.rest().len());
        let elements = count(cursor, 0..=r)?;
        let mut seen = 0u32;
        for _ in 0..elements {
            let key = cursor.u32()?;
            if key >= r || seen & (1 << key) != 0 {
                return Err(KEY);
            }
            seen |= 1 << key;
            if cursor.u64()? > LARGEST_TICK {
                return Err(TICK);
            }
        }
        e += elements;
    }
    Ok((v, e))
}

/// The ranges; gives their count.
#[inline(always)] // keeps the cursor in registers
fn ranges(cursor: &mut Cursor, v: u32, places: &mut impl Places) -> Result<u32, u32> {
    cursor.fixed(23u32.to_be_bytes())?;
    cursor.fixed(1u32.to_be_bytes())?;
    cursor.fixed(22u32.to_be_bytes())?;
    let g = count(cursor, RANGES)?;

    places.ranges(cursor.rest().len());
    let mut before: Option<&ItemId> = None;
    for _ in 0..g {
        let bound = cursor.take()?;
        if before.is_some_and(|before| words(bound) <= words(before)) {
            return Err(BOUND);
        }
        before = Some(bound);
        if cursor.u32()? >= v {
            return Err(INDEX);
        }
    }
    Ok(g)
}

#[cfg(test)]
mod tests {
    use super::*;
    use crate::refusal::{CUT, FIXED_FIELD};

    /// The smallest knowledge: no replicas, the empty vector, one range at 24 zero bytes.
    #[rustfmt::skip]
    const K1: [u8; 113] = [
        0, 0, 0, 5,  0, 0, 0, 0,  0, 0, 0, 1,  0, 0, 0, 0,
        0, 0, 0, 5,  0,  0, 16,  0, 0, 0, 0,
        0, 0, 0, 24,  0,  0, 16,  0,  0, 24,  0,  0, 1,
        0, 0, 0, 21,  0, 0, 0, 1,
        0, 0, 0, 1,  0, 0, 0, 0,
        0, 0, 0, 23,  0, 0, 0, 1,  0, 0, 0, 22,  0, 0, 0, 1,
        0, 0, 0, 0, 0, 0, 0, 0, 0, 0, 0, 0, 0, 0, 0, 0, 0, 0, 0, 0, 0, 0, 0, 0,  0, 0, 0, 0,
        0, 0, 0, 0,  0, 0, 0, 25,  1,  0, 0, 0, 0,
    ];

    /// Two replicas, three vectors (none, 1 element, 2 elements), two ranges: 77 + 32 + 24 + 36 + 56 bytes.
    #[rustfmt::skip]
    const SAMPLE: [u8; 225] = [
        0, 0, 0, 5,  0, 0, 0, 0,  0, 0, 0, 1,  0, 0, 0, 0,
        0, 0, 0, 5,  0,  0, 16,  0, 0, 0, 2,
        1, 1, 1, 1, 1, 1, 1, 1, 1, 1, 1, 1, 1, 1, 1, 1,
        1, 1, 1, 1, 1, 1, 1, 1, 1, 1, 1, 1, 1, 1, 1, 2,
        0, 0, 0, 24,  0,  0, 16,  0,  0, 24,  0,  0, 1,
        0, 0, 0, 21,  0, 0, 0, 3,
        0, 0, 0, 1,  0, 0, 0, 0,
        0, 0, 0, 1,  0, 0, 0, 1,  0, 0, 0, 1,  0, 0, 0, 0, 0, 0, 0, 9,
        0, 0, 0, 1,  0, 0, 0, 2,  0, 0, 0, 1,  127, 255, 255, 255, 255, 255, 255, 255,
                                  0, 0, 0, 0,  0, 0, 0, 0, 0, 0, 0, 0,
        0, 0, 0, 23,  0, 0, 0, 1,  0, 0, 0, 22,  0, 0, 0, 2,
        0, 0, 0, 0, 0, 0, 0, 0, 0, 0, 0, 0, 0, 0, 0, 0, 0, 0, 0, 0, 0, 0, 1, 0,  0, 0, 0, 2,
        0, 0, 0, 0, 0, 0, 0, 0, 0, 0, 0, 0, 0, 0, 0, 0, 0, 0, 0, 0, 0, 0, 1, 1,  0, 0, 0, 1,
        0, 0, 0, 0,  0, 0, 0, 25,  1,  0, 0, 0, 0,
    ];

    // Where fields of the sample start.
    const REPLICA_COUNT: usize = 23;
    const SECOND_REPLICA: usize = 43;
    const VECTOR_COUNT: usize = 76;
    const FIRST_ELEMENT_COUNT: usize = 84;
    const SECOND_ELEMENT_COUNT: usize = 92;
    const LAST_KEY: usize = 128;
    const LAST_TICK: usize = 132;
    const RANGE_COUNT: usize = 152;
    const SECOND_BOUND: usize = 184;
    const LAST_INDEX: usize = 208;

    /// The sample with a field replaced.
    fn with<const N: usize>(start: usize, field: [u8; N]) -> Vec<u8> {
        let mut bytes = SAMPLE.to_vec();
        bytes[start..start + N].copy_from_slice(&field);
        bytes
    }

    fn with_u32(start: usize, number: u32) -> Vec<u8> {
        with(start, number.to_be_bytes())
    }

    #[test]
    fn k1_the_smallest_knowledge_is_accepted() {
        assert_eq!(check(&K1), Ok(Sizes { r: 0, v: 1, e: 0, g: 1 }));
    }

    #[test]
    fn k2_without_its_last_byte_it_is_cut() {
        assert_eq!(check(&K1[..112]), Err(CUT));
    }

    #[test]
    fn k3_with_one_byte_more_it_has_bytes_left_over() {
        assert_eq!(check(&[&K1[..], &[0]].concat()), Err(LEFT_OVER));
    }

    #[test]
    fn the_sample_is_accepted() {
        assert_eq!(check(&SAMPLE), Ok(Sizes { r: 2, v: 3, e: 3, g: 2 }));
    }

    #[test]
    fn number_1_every_shorter_part_of_the_sample() {
        for n in 0..SAMPLE.len() {
            assert_eq!(check(&SAMPLE[..n]), Err(CUT), "{n} bytes");
        }
    }

    #[test]
    fn number_1_comes_before_the_number_of_the_field_that_is_cut() {
        assert_eq!(check(&[255]), Err(CUT));
        assert_eq!(check(&with_u32(FIRST_ELEMENT_COUNT, u32::MAX)[..FIRST_ELEMENT_COUNT + 3]), Err(CUT));
        assert_eq!(check(&with_u32(LAST_KEY, u32::MAX)[..LAST_KEY + 3]), Err(CUT));
    }

    #[test]
    fn number_2_fixed_fields() {
        let fixed = [0..23, 59..76, 80..84, 88..92, 108..112, 140..152, 212..225];
        for at in fixed.into_iter().flatten() {
            assert_eq!(check(&with(at, [SAMPLE[at] ^ 128])), Err(FIXED_FIELD), "byte {at}");
        }
    }

    #[test]
    fn number_3_counts() {
        for count in [17, u32::MAX] {
            assert_eq!(check(&with_u32(REPLICA_COUNT, count)), Err(COUNT));
        }
        for count in [0, 66, u32::MAX] {
            assert_eq!(check(&with_u32(VECTOR_COUNT, count)), Err(COUNT));
        }
        for count in [3, u32::MAX] {
            assert_eq!(check(&with_u32(SECOND_ELEMENT_COUNT, count)), Err(COUNT));
        }
        for count in [0, 65, u32::MAX] {
            assert_eq!(check(&with_u32(RANGE_COUNT, count)), Err(COUNT));
        }
    }

    #[test]
    fn number_4_the_first_vector_not_empty_whatever_its_count() {
        for count in [1, 2, 3, u32::MAX] {
            assert_eq!(check(&with_u32(FIRST_ELEMENT_COUNT, count)), Err(FIRST_VECTOR));
        }
    }

    #[test]
    fn number_5_a_replica_id_twice() {
        assert_eq!(check(&with(SECOND_REPLICA, [1; 16])), Err(REPLICA_ID));
    }

    #[test]
    fn number_6_keys() {
        for key in [1, 2, u32::MAX] {
            assert_eq!(check(&with_u32(LAST_KEY, key)), Err(KEY));
        }
        assert_eq!(check(&with_u32(LAST_KEY, 1)[..LAST_TICK]), Err(KEY), "a repeated key before a tick that is cut");
    }

    #[test]
    fn number_7_ticks() {
        assert_eq!(check(&with(LAST_TICK, (1u64 << 63).to_be_bytes())), Err(TICK));
        assert_eq!(check(&with(LAST_TICK, [255; 8])), Err(TICK));
        assert!(check(&with(LAST_TICK, ((1u64 << 63) - 1).to_be_bytes())).is_ok());
    }

    #[test]
    fn number_8_bounds() {
        for end in [[1, 0], [0, 255]] {
            assert_eq!(check(&with(SECOND_BOUND + 22, end)), Err(BOUND));
        }
        assert!(check(&with(SECOND_BOUND, [255; 24])).is_ok());
    }

    #[test]
    fn number_9_indices() {
        for index in [3, u32::MAX] {
            assert_eq!(check(&with_u32(LAST_INDEX, index)), Err(INDEX));
        }
        assert!(check(&with_u32(LAST_INDEX, 0)).is_ok());
    }

    #[test]
    fn number_10_only_where_everything_before_is_without_fault() {
        assert_eq!(check(&[&SAMPLE[..], &SAMPLE[..]].concat()), Err(LEFT_OVER));
        assert_eq!(check(&[&with(224, [1])[..], &[0]].concat()), Err(FIXED_FIELD));
    }

    #[test]
    fn the_first_of_several_faults_is_given() {
        let mut bytes = with_u32(LAST_INDEX, 3);
        bytes.push(0);
        let mut damage = |start: usize, field: &[u8], number| {
            bytes[start..start + field.len()].copy_from_slice(field);
            assert_eq!(check(&bytes), Err(number), "a fault at byte {start}");
        };
        damage(SECOND_BOUND, &[0; 24], BOUND);
        damage(LAST_TICK, &[255; 8], TICK);
        damage(LAST_KEY, &[255; 4], KEY);
        damage(SECOND_ELEMENT_COUNT, &[255; 4], COUNT);
        damage(FIRST_ELEMENT_COUNT, &[255; 4], FIRST_VECTOR);
        damage(SECOND_REPLICA, &[1; 16], REPLICA_ID);
        damage(0, &[1], FIXED_FIELD);
    }
}
