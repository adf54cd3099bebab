//! One call, asked of the engine and compared with the answer that it must give.

use std::fmt::Debug;

/// What a call writes behind a pointer.
pub trait Value: Copy + Debug + Eq {
    /// The value whose bytes are all alike.
    fn filled(byte: u8) -> Self;
}

impl Value for u32 {
    fn filled(byte: u8) -> Self {
        u32::from_ne_bytes([byte; 4])
    }
}

impl Value for i64 {
    fn filled(byte: u8) -> Self {
        i64::from_ne_bytes([byte; 8])
    }
}

impl Value for u64 {
    fn filled(byte: u8) -> Self {
        u64::from_ne_bytes([byte; 8])
    }
}

impl<const N: usize> Value for [u64; N] {
    fn filled(byte: u8) -> Self {
        [Value::filled(byte); N]
    }
}

/// Calls the engine twice and compares what it gives with the answer: a value and the number 0, or the number of the refusal
/// and then no change of anything. The error says where they differ.
pub fn compare<const N: usize, T: Value>(
    place: usize,
    arguments: [&[u8]; N],
    answer: Result<T, u32>,
    engine: impl Fn([&[u8]; N], &mut T) -> u32,
) -> Result<(), String> {
    in_place(arguments, answer, &engine)?;
    copied(place, arguments, answer, &engine)
}

/// The arguments where they lie, perhaps with other bytes behind them that an engine reading too far would take for a part
/// of them. Values in front of the one that is written and behind it show writing too far.
fn in_place<const N: usize, T: Value>(
    arguments: [&[u8]; N],
    answer: Result<T, u32>,
    engine: &impl Fn([&[u8]; N], &mut T) -> u32,
) -> Result<(), String> {
    let before = T::filled(0xa5);
    let mut values = [before; 5];
    let number = engine(arguments, &mut values[2]);
    differ("in place", number, values[2], before, answer)?;
    values[2] = before;
    if values != [before; 5] {
        return Err("the engine wrote before or behind the value".to_owned());
    }
    Ok(())
}

/// Copies that end where their memory ends, so that valgrind sees reading too far, and the value likewise. Their addresses
/// are not always even.
fn copied<const N: usize, T: Value>(
    place: usize,
    arguments: [&[u8]; N],
    answer: Result<T, u32>,
    engine: &impl Fn([&[u8]; N], &mut T) -> u32,
) -> Result<(), String> {
    let copies = Copies::new(place, arguments);
    let before = T::filled(0x3c);
    let mut value = Box::new(before);
    let number = engine(copies.arguments(), &mut value);
    differ("copied", number, *value, before, answer)?;
    copies.unchanged(arguments)
}

/// Copies of arguments, each in memory of its own that ends where it ends.
pub struct Copies<const N: usize> {
    place: usize,
    memories: [Box<[u8]>; N],
}

impl<const N: usize> Copies<N> {
    pub fn new(place: usize, arguments: [&[u8]; N]) -> Self {
        let memories = std::array::from_fn(|argument| {
            let front = front(place, argument);
            let mut memory = vec![0; front + arguments[argument].len()].into_boxed_slice();
            memory[front..].copy_from_slice(arguments[argument]);
            memory
        });
        Self { place, memories }
    }

    pub fn arguments(&self) -> [&[u8]; N] {
        std::array::from_fn(|argument| &self.memories[argument][front(self.place, argument)..])
    }

    /// The error, where a copy is no longer like its argument.
    pub fn unchanged(&self, arguments: [&[u8]; N]) -> Result<(), String> {
        for (argument, memory) in self.memories.iter().enumerate() {
            let (front, back) = memory.split_at(front(self.place, argument));
            if front.iter().any(|byte| *byte != 0) || back != arguments[argument] {
                return Err(format!("the engine changed argument {argument}"));
            }
        }
        Ok(())
    }
}

/// How many bytes the memory of a copy has in front of it.
pub fn front(place: usize, argument: usize) -> usize {
    (place + 3 * argument) % 8
}

/// The error, where number or value are not as the answer says.
fn differ<T: Value>(how: &str, number: u32, value: T, before: T, answer: Result<T, u32>) -> Result<(), String> {
    let (right_number, right_value) = match answer {
        Ok(value) => (0, value),
        Err(number) => (number, before),
    };
    if number == right_number && value == right_value {
        return Ok(());
    }
    let shown = |number: u32, value: T| {
        let refused = match number {
            0 => "accepts".to_owned(),
            _ => format!("refuses with {number}"),
        };
        if value == before { format!("{refused}, value untouched") } else { format!("{refused}, value {value:?}") }
    };
    Err(format!("{how}: engine {}, reference {}", shown(number, value), shown(right_number, right_value)))
}

/// Bytes in hexadecimal, at most so many as one reads.
pub fn hex(bytes: &[u8]) -> String {
    const SHOWN: usize = 1024;
    let hex: String = bytes.iter().take(SHOWN).map(|byte| format!("{byte:02x}")).collect();
    let more = if bytes.len() > SHOWN { "..." } else { "" };
    format!("{} bytes: {hex}{more}", bytes.len())
}

#[cfg(test)]
mod tests {
    use std::cell::Cell;

    use super::*;

    #[test]
    fn number_and_value_are_compared() {
        let calls = Cell::new(0);
        let engine = |_: [&[u8]; 1], value: &mut u32| {
            calls.set(calls.get() + 1);
            *value = 1;
            0
        };
        assert_eq!(compare(0, [&[]], Ok(1), engine), Ok(()));
        assert_eq!(calls.get(), 2);
        assert!(compare(0, [&[]], Ok(2), engine).unwrap_err().contains("engine accepts, value 1"));
        assert!(compare(0, [&[]], Err(3), engine).unwrap_err().contains("reference refuses with 3, value untouched"));
    }

    #[test]
    fn a_value_that_is_left_as_it_was_is_noticed_whatever_the_answer() {
        for answer in [0xa5a5_a5a5_u32, 0x3c3c_3c3c] {
            assert!(compare(0, [&[]], Ok(answer), |_, _| 0).unwrap_err().contains("value untouched"));
        }
    }
}
