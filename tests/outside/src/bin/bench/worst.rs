//! How much longer a call takes on inputs that are made to take long than on a typical one that is as long.

use crate::measure::TURNS;
use crate::row::Row;
use crate::{worst_knowledges, worst_stores};

/// Fewer than those of the other tables, as there are many inputs.
const ROUNDS: usize = 2;
/// The most that the worst input may take, in times of the typical one.
const BAR: u32 = 2;
/// Of inputs that take nearly as long as the worst, the first one counts.
const NEARLY: f64 = 1.02;

const NOTES: &str = "\
Typical is the named input, most often of the call's own table. The others have as many replicas, ranges, vectors and
records, and as many bytes but for a few in a hundred; they are accepted, or refused with the same number. *Words alike*:
the engine's hashes of all vectors and of all rows are the same. *Hashes of Rust alike*: those of Rust are. The ratio of
Rust is the greatest that it has on the same inputs.";

/// How many of everything an input has.
#[derive(Clone, Copy)]
pub struct Size {
    pub replicas: usize,
    pub ranges: usize,
    pub records: usize,
}

const MIDDLE: Size = Size { replicas: 4, ranges: 8, records: 32 };
const LARGEST: Size = Size { replicas: 16, ranges: 64, records: 256 };

/// A call on inputs of one size: a typical one, and those that are made to take long.
pub struct Case {
    typical: Row,
    made: Vec<Row>,
}

/// A call at the middle and the largest size, as far as it has inputs of that size.
pub struct Line {
    pub call: &'static str,
    pub input: &'static str,
    pub sizes: [Option<Case>; 2],
}

/// Measures all calls and gives the table.
pub fn measured() -> String {
    let mut lines = worst_knowledges::lines();
    lines.extend(worst_stores::lines());
    for _ in 0..ROUNDS {
        lines.iter_mut().flat_map(Line::rows).for_each(Row::measure);
    }
    let size = |Size { replicas, ranges, records }| format!("{replicas} replicas, {ranges} ranges, {records} records");
    let columns = |name| format!("{name}: typical | worst | worst / typical | of Rust | worst input");
    let mut text = format!(
        "\nThe worst inputs of a size: middle ({}) and largest ({})\n\n\
         {} turns of each side on each input; ns per call of the engine, and worst / typical of both.\n{NOTES}\n\
         **Bar: worst / typical of the engine at most {BAR}**, for opening a store or batch and for all that reads.\n\n\
         | Call | Typical input | {} | {} |\n|---|---|{}\n",
        size(MIDDLE),
        size(LARGEST),
        ROUNDS * TURNS,
        columns("Middle"),
        columns("Largest"),
        "---:|---:|---:|---:|---|".repeat(2),
    );
    text.extend(lines.iter().map(Line::line));
    text
}

impl Line {
    /// A call whose inputs of a size are made by a function.
    pub fn new(call: &'static str, input: &'static str, case: impl Fn(Size) -> Case) -> Self {
        Self { call, input, sizes: [MIDDLE, LARGEST].map(|size| Some(case(size))) }
    }

    /// A call that has inputs of the largest size only.
    pub fn of_the_largest(call: &'static str, input: &'static str, case: impl Fn(Size) -> Case) -> Self {
        Self { call, input, sizes: [None, Some(case(LARGEST))] }
    }

    fn rows(&mut self) -> impl Iterator<Item = &mut Row> {
        self.sizes.iter_mut().flatten().flat_map(|case| [&mut case.typical].into_iter().chain(&mut case.made))
    }

    /// A line of the table.
    fn line(&self) -> String {
        let none = || ["–"; 5].join(" | ");
        let cells = self.sizes.each_ref().map(|case| case.as_ref().map_or_else(none, Case::cells));
        format!("| `{}` | {} | {} |\n", self.call, self.input, cells.join(" | "))
    }
}

impl Case {
    pub fn new(typical: Row, made: Vec<Row>) -> Self {
        let mut case = Self { typical, made: Vec::new() };
        made.into_iter().for_each(|row| case.add(row));
        case
    }

    /// Adds an input, which is at most as long as the typical one, and nearly so.
    pub fn add(&mut self, row: Row) {
        let (made, typical) = (row.bytes(), self.typical.bytes());
        assert!(made <= typical && 10 * made >= 9 * typical, "{}: {made} and {typical} bytes", row.name);
        self.made.push(row);
    }

    /// The times of the typical and the worst input, their ratio, that of the reference, and the name of the worst.
    fn cells(&self) -> String {
        let [typical, rust] = self.typical.times.both();
        let longest = |side: usize| self.made.iter().map(|row| row.times.both()[side]).fold(0.0, f64::max);
        let is_worst = |row: &&Row| row.times.both()[0] * NEARLY >= longest(0);
        let row = self.made.iter().find(is_worst).expect("there is an input");
        let worst = row.times.both()[0];
        format!("{typical:.0} | {worst:.0} | {:.2} | {:.2} | {}", worst / typical, longest(1) / rust, row.name)
    }
}
