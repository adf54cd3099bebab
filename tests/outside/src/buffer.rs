//! One call that writes a knowledge, asked of the engine and compared with the answer that it must give.

use crate::one::{Copies, front};

/// Calls the engine twice and compares what it gives with the answer: the bytes at the front of the buffer, their length and the
/// number 0, or the number of the refusal and then no change of anything. The buffer has so many bytes. The error says
/// where they differ.
pub fn compare<const N: usize>(
    place: usize,
    arguments: [&[u8]; N],
    room: usize,
    answer: Result<&[u8], u32>,
    engine: impl Fn([&[u8]; N], &mut [u8], &mut u64) -> u32,
) -> Result<(), String> {
    in_place(arguments, room, answer, &engine)?;
    copied(place, arguments, room, answer, &engine)
}

/// Bytes that stand in front of the buffer and behind it.
const GUARD: usize = 64;

/// The arguments where they lie, and the buffer between other bytes, which show writing too far.
fn in_place<const N: usize>(
    arguments: [&[u8]; N],
    room: usize,
    answer: Result<&[u8], u32>,
    engine: &impl Fn([&[u8]; N], &mut [u8], &mut u64) -> u32,
) -> Result<(), String> {
    const BEFORE: u64 = u64::from_ne_bytes([0xa5; 8]);
    let mut memory = filled(GUARD + room + GUARD, 0xa5);
    let mut values = [BEFORE; 5];
    let number = engine(arguments, &mut memory[GUARD..][..room], &mut values[2]);
    differ("in place", number, (values[2], BEFORE), &memory[GUARD..][..room], (GUARD, 0xa5), answer)?;
    values[2] = BEFORE;
    if values != [BEFORE; 5] {
        return Err("the engine wrote before or behind the length".to_owned());
    }
    if !is_filled(&memory[..GUARD], 0, 0xa5) || !is_filled(&memory[GUARD + room..], GUARD + room, 0xa5) {
        return Err("the engine wrote before or behind the buffer".to_owned());
    }
    Ok(())
}

/// Copies that end where their memory ends, so that valgrind sees reading and writing too far, and the length likewise. The
/// buffer has other bytes in it than the first time.
fn copied<const N: usize>(
    place: usize,
    arguments: [&[u8]; N],
    room: usize,
    answer: Result<&[u8], u32>,
    engine: &impl Fn([&[u8]; N], &mut [u8], &mut u64) -> u32,
) -> Result<(), String> {
    const BEFORE: u64 = u64::from_ne_bytes([0x3c; 8]);
    let copies = Copies::new(place, arguments);
    let front = front(place, N);
    let mut memory = filled(front + room, 0x3c).into_boxed_slice();
    let mut written = Box::new(BEFORE);
    let number = engine(copies.arguments(), &mut memory[front..], &mut written);
    differ("copied", number, (*written, BEFORE), &memory[front..], (front, 0x3c), answer)?;
    if !is_filled(&memory[..front], 0, 0x3c) {
        return Err("copied: the engine wrote before the buffer".to_owned());
    }
    copies.unchanged(arguments)
}

/// After so many bytes, those of memory that nothing was written to are the same again.
const PERIOD: usize = 256;

/// The bytes from a place on of memory that nothing was written to. No two neighbours are alike.
fn fill(from: usize, byte: u8) -> [u8; PERIOD] {
    std::array::from_fn(|place| byte.wrapping_add(((from + place) as u8).wrapping_mul(7)))
}

fn filled(length: usize, byte: u8) -> Vec<u8> {
    let fill = fill(0, byte);
    let mut memory = vec![0; length];
    memory.chunks_mut(PERIOD).for_each(|chunk| chunk.copy_from_slice(&fill[..chunk.len()]));
    memory
}

/// Whether nothing was written to memory that begins at a place.
fn is_filled(memory: &[u8], from: usize, byte: u8) -> bool {
    let fill = fill(from, byte);
    memory.chunks(PERIOD).all(|chunk| *chunk == fill[..chunk.len()])
}

/// The error, where number, length or any byte of the buffer are not as the answer says. The buffer begins at a place of its memory.
fn differ(
    how: &str,
    number: u32,
    (written, before): (u64, u64),
    out: &[u8],
    (from, byte): (usize, u8),
    answer: Result<&[u8], u32>,
) -> Result<(), String> {
    let (right_number, right_written, result) = match answer {
        Ok(bytes) => (0, bytes.len() as u64, bytes),
        Err(number) => (number, before, &[][..]),
    };
    if number != right_number || written != right_written {
        let shown = |number: u32, written: u64| {
            let refused = match number {
                0 => "accepts".to_owned(),
                _ => format!("refuses with {number}"),
            };
            let length = if written == before { "length untouched".to_owned() } else { format!("length {written}") };
            format!("{refused}, {length}")
        };
        let (engine, reference) = (shown(number, written), shown(right_number, right_written));
        return Err(format!("{how}: engine {engine}, reference {reference}"));
    }
    let (front, rest) = out.split_at(result.len());
    if let Some(place) = front.iter().zip(result).position(|(found, right)| found != right) {
        let (found, right) = (front[place], result[place]);
        return Err(format!("{how}: engine writes {found} at byte {place} of the result, reference {right}"));
    }
    if !is_filled(rest, from + result.len(), byte) {
        let rest = if number == 0 { "behind the result" } else { "on a refusal" };
        return Err(format!("{how}: engine changes the buffer {rest}"));
    }
    Ok(())
}

#[cfg(test)]
mod tests {
    use std::cell::Cell;

    use super::*;

    fn right(_: [&[u8]; 1], out: &mut [u8], written: &mut u64) -> u32 {
        out[..3].copy_from_slice(&[1, 2, 3]);
        *written = 3;
        0
    }

    #[test]
    fn a_right_engine_is_called_twice_and_passes() {
        for room in [3, 4, 100] {
            let calls = Cell::new(0);
            let engine = |arguments: [&[u8]; 1], out: &mut [u8], written: &mut u64| {
                calls.set(calls.get() + 1);
                assert_eq!(out.len(), room);
                right(arguments, out, written)
            };
            assert_eq!(compare(5, [&[9]], room, Ok(&[1, 2, 3]), engine), Ok(()));
            assert_eq!(calls.get(), 2);
        }
        assert_eq!(compare(5, [&[9]], 2, Err(14), |_, _, _| 14), Ok(()));
    }

    #[test]
    fn number_length_and_bytes_are_compared() {
        let noticed = |answer, words: &str| {
            let error = compare(5, [&[9]], 9, answer, right).unwrap_err();
            assert!(error.contains(words), "{error}");
        };
        noticed(Err(14), "engine accepts, length 3, reference refuses with 14, length untouched");
        noticed(Ok(&[1, 2, 3, 4]), "engine accepts, length 3, reference accepts, length 4");
        noticed(Ok(&[1, 2, 4]), "engine writes 3 at byte 2 of the result, reference 4");
    }

    #[test]
    fn a_change_of_any_byte_is_noticed() {
        for place in 3..9 {
            for value in 0..=255 {
                let accepts = |arguments: [&[u8]; 1], out: &mut [u8], written: &mut u64| {
                    out[place] = value;
                    right(arguments, out, written)
                };
                let error = compare(5, [&[9]], 9, Ok(&[1, 2, 3]), accepts).unwrap_err();
                assert!(error.contains("engine changes the buffer behind the result"), "{error}");
                let refuses = |_: [&[u8]; 1], out: &mut [u8], _: &mut u64| {
                    out[place] = value;
                    12
                };
                let error = compare(5, [&[9]], 9, Err(12), refuses).unwrap_err();
                assert!(error.contains("engine changes the buffer on a refusal"), "{error}");
            }
        }
    }

    #[test]
    fn a_length_on_a_refusal_is_noticed() {
        for value in [0, 3, u64::MAX, u64::from_ne_bytes([0xa5; 8]), u64::from_ne_bytes([0x3c; 8])] {
            let engine = |_: [&[u8]; 1], _: &mut [u8], written: &mut u64| {
                *written = value;
                12
            };
            assert!(compare(5, [&[9]], 9, Err(12), engine).unwrap_err().contains("reference refuses with 12"));
        }
    }
}
