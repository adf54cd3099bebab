use super::{Call, calls, markdown, plot};

/// Tables as the benchmark prints them and as a document has them, with others between them.
const TEXT: &str = "\
1200 turns of each side

`check`

| Knowledge | Input | Bytes | Number | Engine | Rust | Engine / Rust | 6 rounds, least to most | Goal |
|---|---|---:|---:|---:|---:|---:|---:|---:|
| smallest | cut by one byte | 112 | 1 | 9.5 | 11.6 | 0.81 | 0.81 to 0.81 | 1.0 |
| smallest | accepted | 113 | 0 | 11.4 | 12.2 | 0.94 | 0.94 to 0.94 | 0.8 |
| smallest | backwards | 113 | 0 | 31.0 | 12.0 | 2.55 | 2.50 to 2.60 | 0.8 |
| middle | accepted | 821 | 0 | 59.1 | 68.5 | 0.86 | 0.85 to 0.86 | 0.8 |
| largest | accepted | 14933 | 0 | 899.9 | 1273.0 | 0.71 | 0.70 to 0.85 | 0.8 |
| largest | backwards | 14933 | 0 | 650.0 | 1300.0 | 0.50 | 0.50 to 0.50 | 0.8 |

## `new`

| Store | Input | Bytes | Number | Engine | Rust | Engine / Rust | 6 rounds, least to most | Goal |
|---|---|---:|---:|---:|---:|---:|---:|---:|
| 1 record | accepted | 16 | 0 | 8.0 | 4.6 | 1.73 | 1.68 to 2.05 | 0.8 |
| largest | accepted | 16 | 0 | 8.0 | 4.6 | 1.74 | 1.68 to 1.74 | 0.8 |

# Apply in memcpys

| Store | Input | Bytes | Number | Engine | Rust | Engine / Rust |
|---|---|---:|---:|---:|---:|---:|
| 1 record | copied | 675 | 0 | 573.8 | 15.4 | 37.20 |
";

const OVERVIEW: &str = "\
| Call | Input | Smallest: engine | Rust | ratio | Middle: engine | Rust | ratio | Largest: engine | Rust | ratio \
| All inputs |
|---|---|---:|---:|---:|---:|---:|---:|---:|---:|---:|---:|
| `check` | accepted | 11.4 | 12.2 | 0.94 | 59.1 | 68.5 | 0.86 | 899.9 | 1273.0 | 0.71 | 0.50 to 2.55 |
| `new` | accepted | 8.0 | 4.6 | 1.73 | – | – | – | – | – | – | 1.73 to 1.73 |
";

fn read(text: &str) -> Vec<Call> {
    calls(text).expect("its tables can be read")
}

#[test]
fn overview_has_the_first_accepted_input_of_each_call() {
    assert_eq!(markdown(&read(TEXT)), OVERVIEW);
}

#[test]
fn overview_passes_over_itself_and_over_other_tables() {
    assert_eq!(read(&format!("{OVERVIEW}\n{TEXT}{OVERVIEW}")), read(TEXT));
    assert_eq!(read(OVERVIEW), []);
}

#[test]
fn overview_refuses_a_row_that_it_cannot_read() {
    let error = calls(&TEXT.replace("| 8.0 |", "| 8,0 |")).expect_err("8,0 is no number");
    assert!(error.starts_with("no row of the table of new: | 1 record"), "{error}");
    assert!(calls(&TEXT.replace(" 1.73 | 1.68 to 2.05 | 0.8 |", "")).is_err());
}

#[test]
fn overview_plots_a_bar_for_each_figure() {
    let svg = plot(&read(TEXT));
    assert_eq!(well_formed(&svg), Ok(()));
    assert_eq!(svg.matches("class=\"ratio\"").count(), 4);
    for text in ["check", "new", "0.94", "0.86", "0.71", "1.73", "1.0", "smallest", "middle", "largest"] {
        assert_eq!(svg.matches(&format!(">{text}</text>")).count(), if text == "1.0" { 2 } else { 1 }, "{text}");
    }
    // The scale goes to 3, so that a ratio of 1 has 200 of the 600 pixels.
    assert!(svg.contains(" width=\"188.0\""), "the bar of 0.94: {svg}");
    assert_eq!(svg.matches("class=\"range\"").count(), 1 + 2, "that of the legend, and those of check");
}

#[test]
fn overview_plots_any_names_and_ratios() {
    let odd = TEXT.replace("`check`", "`<a & b>`").replace("| 1.73 |", "| 173.20 |");
    let svg = plot(&read(&odd));
    assert_eq!(well_formed(&svg), Ok(()));
    assert!(svg.contains(">&lt;a &amp; b&gt;</text>"));
    assert_eq!(svg.matches("stroke=\"#dddddd\"").count(), 10, "marks at 0, 18, 36 up to 162");
    assert_eq!(well_formed(&plot(&[])), Ok(()));
}

#[test]
fn overview_tells_what_is_not_well_formed() {
    for text in ["<a><b></a></b>", "<a>", "</a>", "<a b=c/>", "<a b=\"c/>", "<a>b & c</a>", "<a", "<a></a><a></a>"] {
        assert!(well_formed(text).is_err(), "{text}");
    }
}

/// The overview of the document is that of its own tables, and so is its plot.
#[test]
fn overview_of_the_document_is_that_of_its_tables() {
    const DOCUMENT: &str = include_str!("../../../../docs/BENCHMARKS.md");
    const PLOT: &str = include_str!("../../../../docs/benchmarks.svg");
    let calls = read(DOCUMENT);
    assert_eq!(calls.len(), 18);
    let again = "run tests/bench overview < docs/BENCHMARKS.md";
    assert!(DOCUMENT.contains(&markdown(&calls)), "{again} and put what it prints in the place of the first table");
    assert!(PLOT == plot(&calls), "{again}");
}

/// Whether tags are closed in turn below one element, attributes are quoted, and no bare sign stands between tags.
fn well_formed(text: &str) -> Result<(), String> {
    let mut open: Vec<&str> = Vec::new();
    let mut elements = 0;
    for piece in text.split('<').skip(1) {
        let (tag, between) = piece.split_once('>').ok_or(format!("no end of {piece}"))?;
        let signs = between.replace("&amp;", "").replace("&lt;", "").replace("&gt;", "");
        if signs.contains(['&', '>']) {
            return Err(format!("a bare sign: {between}"));
        }
        if let Some(name) = tag.strip_prefix('/') {
            if open.pop() != Some(name) {
                return Err(format!("{name} is not open"));
            }
            continue;
        }
        let (name, attributes) = tag.trim_end_matches('/').split_once(' ').unwrap_or((tag, ""));
        // Outside of quotes only names, blanks and equality signs are left.
        let parts: Vec<&str> = attributes.split('"').collect();
        let names = parts.iter().step_by(2);
        if parts.len().is_multiple_of(2)
            || names.rev().skip(1).any(|part| !part.ends_with('='))
            || !parts[parts.len() - 1].is_empty()
        {
            return Err(format!("attributes of {name}"));
        }
        elements += usize::from(open.is_empty());
        if !tag.ends_with('/') {
            open.push(name);
        }
    }
    if open.is_empty() && elements == 1 { Ok(()) } else { Err(format!("{elements} elements, {open:?} open")) }
}
