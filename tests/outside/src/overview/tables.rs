//! Reading the tables of the calls.

use super::{Call, Figures, SIZES};

/// The columns that are read, beside the first one, which has the size.
const COLUMNS: [&str; 6] = ["Input", "Bytes", "Number", "Engine", "Rust", "Engine / Rust"];

/// A row of a table.
struct Row {
    size: String,
    input: String,
    /// How long the input is.
    bytes: u64,
    /// The number that is given, 0 if nothing is refused.
    number: u32,
    engine: f64,
    rust: f64,
    ratio: f64,
}

/// The calls that have a table in the text. A table belongs to a call if a line with the call's name stands above it;
/// other tables are passed over. An error is a row that cannot be read.
pub fn calls(text: &str) -> Result<Vec<Call>, String> {
    let mut tables: Vec<(String, Vec<Row>)> = Vec::new();
    let mut name = None;
    let mut columns = None;
    for line in text.lines() {
        let Some(cells) = cells(line) else {
            columns = None;
            if line.starts_with(['#', '`']) {
                name = call_of(line);
            }
            continue;
        };
        match (name, columns) {
            (Some(name), None) => {
                columns = columns_of(&cells);
                if columns.is_some() {
                    tables.push((name.to_owned(), Vec::new()));
                }
            }
            (Some(_), Some(columns)) if !cells[0].starts_with("---") => {
                let (name, rows) = tables.last_mut().expect("its head was read");
                rows.push(Row::read(columns, &cells).ok_or_else(|| format!("no row of the table of {name}: {line}"))?);
            }
            _ => {}
        }
    }
    Ok(tables.into_iter().filter_map(|(name, rows)| Call::of(name, &rows)).collect())
}

/// The call that a line names, as in "## `check`".
fn call_of(line: &str) -> Option<&str> {
    let name = line.trim_start_matches('#').trim().strip_prefix('`')?.strip_suffix('`')?;
    (!name.contains('`')).then_some(name)
}

fn cells(line: &str) -> Option<Vec<&str>> {
    let inner = line.strip_prefix('|')?.strip_suffix('|')?;
    Some(inner.split('|').map(str::trim).collect())
}

/// Where the columns stand, if the head of a table has them all.
fn columns_of(head: &[&str]) -> Option<[usize; 6]> {
    let mut places = [0; 6];
    for (place, column) in places.iter_mut().zip(COLUMNS) {
        *place = head.iter().position(|cell| *cell == column)?;
    }
    Some(places)
}

impl Row {
    fn read(columns: [usize; 6], cells: &[&str]) -> Option<Self> {
        let mut read = Vec::new();
        for column in columns {
            read.push(*cells.get(column)?);
        }
        Some(Self {
            size: cells[0].to_owned(),
            input: read[0].to_owned(),
            bytes: read[1].parse().ok()?,
            number: read[2].parse().ok()?,
            engine: read[3].parse().ok()?,
            rust: read[4].parse().ok()?,
            ratio: read[5].parse().ok()?,
        })
    }
}

impl Call {
    /// A call by the rows of its table, which stand by rising size; nothing if all are refused.
    fn of(name: String, rows: &[Row]) -> Option<Self> {
        let accepted: Vec<&Row> = rows.iter().filter(|row| row.number == 0).collect();
        let input = &accepted.first()?.input;
        let mut sizes = [None; SIZES.len()];
        let mut bytes = None;
        for (figures, rows) in sizes.iter_mut().zip(accepted.chunk_by(|row, next| row.size == next.size)) {
            let Some(row) = rows.iter().find(|row| row.input == *input) else { continue };
            // An input that is as long as at the size before is the same: the call has none of this size.
            if bytes.replace(row.bytes) != Some(row.bytes) {
                *figures = Some(Figures::of(row, rows));
            }
        }
        Some(Self { name, input: input.clone(), sizes })
    }
}

impl Figures {
    /// Those of a row, among all rows of its size.
    fn of(row: &Row, rows: &[&Row]) -> Self {
        let Row { engine, rust, ratio, .. } = *row;
        let ratios = || rows.iter().map(|row| row.ratio);
        Self { engine, rust, ratio, least: ratios().fold(ratio, f64::min), most: ratios().fold(ratio, f64::max) }
    }
}
