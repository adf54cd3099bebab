//! Measures the calls of the engine against those of the reference and prints a Markdown table for each.
//!
//! Both are called in one process on the same bytes, in short turns, first one and then the other. A turn that something
//! else on the machine disturbs only takes longer, so the time of a call is that of the 5th percentile of the turns. Long
//! turns would nearly all be disturbed, and not both sides alike.
//!
//! Arguments choose among the tables by the names of the calls, `larger`, `growth`, `memcpy` and `worst`. Without any,
//! all but the last are measured. The overview of all calls is then printed first, and its plot written to
//! `docs/benchmarks.svg`, or where the environment variable `SYNC_PLOT` says. The argument `overview` measures nothing: it
//! makes both from the tables in the text on standard input.

mod changing;
mod changing_call;
mod comparing;
mod goal;
mod growth;
mod larger;
mod measure;
mod memcpy;
mod reading;
mod reading_call;
mod row;
mod sample;
mod stores;
mod worst;
mod worst_knowledges;
mod worst_stores;
mod writing;

use std::io;
use std::path::{Path, PathBuf};
use std::process::ExitCode;
use std::{env, fs};

use outside::overview;

use measure::{ROUNDS, TURN, TURNS};
use row::Row;

/// Measures a table, and gives it as text.
type Measured = fn() -> String;

/// The tables by name, in the order of the document.
const TABLES: &[(&str, Measured)] = &[
    ("check", || on_knowledge("check", sample::each(sample::check))),
    ("contain", || on_knowledge("contain", sample::each(sample::contain))),
    ("lead", || on_knowledge("lead", sample::each(sample::lead))),
    ("cover", || on_knowledge("cover", sample::each(sample::cover))),
    ("compare", comparing::measured),
    ("normalise", || on_knowledge("normalise", sample::each(writing::normalise))),
    ("merge", || on_knowledge("merge", sample::each(writing::merge))),
    ("project", || on_knowledge("project", sample::each(writing::project))),
    ("winner", || on_store("winner", stores::each(reading::winner))),
    ("learned", || on_store("learned", stores::each(reading::learned))),
    ("coverage", || on_store("coverage", stores::each(reading::coverage))),
    ("knowledge", || on_store("knowledge", stores::each(reading::knowledge))),
    ("walk", || on_store("walk", stores::each(reading::walk))),
    ("new", || on_store("new", stores::each(changing::new))),
    ("edit", || on_store("edit", stores::each(changing::edit))),
    ("delete", || on_store("delete", stores::each(changing::delete))),
    ("make", || on_store("make", stores::each(changing::make))),
    ("apply", || on_store("apply", stores::each(changing::apply))),
    ("larger", larger::measured),
    ("growth", growth::measured),
    ("memcpy", memcpy::measured),
];

/// Measured only if it is named, as it takes minutes by itself.
const APART: (&str, Measured) = ("worst", worst::measured);

fn main() -> ExitCode {
    let chosen: Vec<String> = env::args().skip(1).collect();
    let ended = if chosen == ["overview"] {
        io::read_to_string(io::stdin()).map_err(|error| error.to_string()).and_then(|text| overview(&text))
    } else if chosen.is_empty() {
        all()
    } else {
        some(&chosen);
        Ok(())
    };
    let Err(error) = ended else { return ExitCode::SUCCESS };
    eprintln!("bench: {error}");
    ExitCode::FAILURE
}

/// Measures all tables, then prints the overview and after it the tables.
fn all() -> Result<(), String> {
    let text: String = TABLES
        .iter()
        .map(|(name, measured)| {
            eprintln!("bench: {name}");
            measured()
        })
        .collect();
    let ended = overview(&text);
    print!("\n{}{text}", turns());
    ended
}

/// Measures the chosen tables and prints each.
fn some(chosen: &[String]) {
    print!("{}", turns());
    for (_, measured) in TABLES.iter().chain([&APART]).filter(|(name, _)| chosen.iter().any(|other| other == name)) {
        print!("{}", measured());
    }
}

/// Prints the overview of the tables of a text, and writes its plot.
fn overview(text: &str) -> Result<(), String> {
    let calls = overview::calls(text)?;
    print!("{}", overview::markdown(&calls));
    let place = env::var_os("SYNC_PLOT")
        .filter(|place| !place.is_empty())
        .map(PathBuf::from)
        .unwrap_or_else(|| Path::new(env!("CARGO_MANIFEST_DIR")).join("../../docs/benchmarks.svg"));
    fs::write(&place, overview::plot(&calls)).map_err(|error| format!("{}: {error}", place.display()))
}

fn turns() -> String {
    let milliseconds = TURN.as_secs_f64() * 1e3;
    format!(
        "{} turns of each side on each input, of about {milliseconds} ms each: their 5th percentile, in ns per call.\n",
        ROUNDS * TURNS
    )
}

type Sizes = Vec<(&'static str, Vec<Row>)>;

fn on_knowledge(call: &str, sizes: Sizes) -> String {
    measured(call, "Knowledge", sizes)
}

fn on_store(call: &str, sizes: Sizes) -> String {
    measured(call, "Store", sizes)
}

/// Measures a call on all sizes and gives its table.
fn measured(call: &str, of: &str, mut sizes: Sizes) -> String {
    for _ in 0..ROUNDS {
        sizes.iter_mut().flat_map(|(_, rows)| rows).for_each(Row::measure);
    }
    let mut text = format!(
        "\n`{call}`\n\n\
         | {of} | Input | Bytes | Number | Engine | Rust | Engine / Rust | {ROUNDS} rounds, least to most | Goal |\n\
         |---|---|---:|---:|---:|---:|---:|---:|---:|\n"
    );
    for (place, (size, rows)) in sizes.iter().enumerate() {
        text.extend(rows.iter().map(|row| row.line(size, goal::of(call, place, row.name, row.number))));
    }
    text
}
