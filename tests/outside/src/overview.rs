//! The overview of the benchmark: every call at three sizes, as a Markdown table and as a plot.
//!
//! Both come from the tables of the calls, as the benchmark prints them and as they stand in `docs/BENCHMARKS.md`, so
//! that they show no figure that these do not have.

mod plot;
mod tables;
#[cfg(test)]
mod tests;

use std::fmt::Write;

pub use plot::plot;
pub use tables::calls;

/// The names of the three sizes.
const SIZES: [&str; 3] = ["Smallest", "Middle", "Largest"];

/// A call with the input that stands for it: the first one of its table that is not refused.
#[derive(Debug, PartialEq)]
pub struct Call {
    name: String,
    input: String,
    /// What was measured at each size, if the call has inputs of that size.
    sizes: [Option<Figures>; 3],
}

/// What was measured at one size: the times of the input in ns per call, their ratio, and the least and the greatest
/// ratio of all inputs that are not refused.
#[derive(Clone, Copy, Debug, PartialEq)]
struct Figures {
    engine: f64,
    rust: f64,
    ratio: f64,
    least: f64,
    most: f64,
}

/// The overview as a Markdown table.
pub fn markdown(calls: &[Call]) -> String {
    let sizes = SIZES.map(|size| format!("{size}: engine | Rust | ratio"));
    let mut text = format!("| Call | Input | {} | All inputs |\n", sizes.join(" | "));
    writeln!(text, "|---|---|{}", "---:|".repeat(3 * SIZES.len() + 1)).expect("a string takes all");
    for Call { name, input, sizes } in calls {
        let cells = sizes.map(cells).join(" | ");
        writeln!(text, "| `{name}` | {input} | {cells} | {} |", all_inputs(sizes)).expect("a string takes all");
    }
    text
}

fn cells(figures: Option<Figures>) -> String {
    match figures {
        Some(Figures { engine, rust, ratio, .. }) => format!("{engine:.1} | {rust:.1} | {ratio:.2}"),
        None => "– | – | –".to_owned(),
    }
}

/// The least and the greatest ratio at any size of any input that is not refused.
fn all_inputs(sizes: &[Option<Figures>]) -> String {
    let figures = || sizes.iter().flatten();
    let least = figures().map(|figures| figures.least).fold(f64::INFINITY, f64::min);
    let most = figures().map(|figures| figures.most).fold(0.0, f64::max);
    format!("{least:.2} to {most:.2}")
}
