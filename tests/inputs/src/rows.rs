//! The rows of calls.

use std::fmt::Debug;
use std::hash::Hash;
use std::sync::OnceLock;

use crate::calls::{self, Call};
use crate::changing::{self, Changing};
use crate::comparing::{self, Comparing};
use crate::reading::{self, Reading};
use crate::writing::{self, Writing};

/// Takes a call of a row with the name of its family. An error ends the run.
pub type Visit<'a, R> = dyn FnMut(&'static str, <R as Row>::Call<'_>) -> Result<(), String> + 'a;

/// A row of calls: some are the same in every run, and as many random ones follow as are asked for.
pub trait Row: 'static {
    type Call<'a>: Copy + Debug + Hash;

    fn fixed(visit: &mut Visit<Self>) -> Result<(), String>;

    fn random(seed: u64, count: usize, visit: &mut Visit<Self>) -> Result<(), String>;

    /// How many calls are the same in every run.
    fn fixed_calls() -> usize;
}

macro_rules! row {
    ($(#[$text:meta])* $name:ident, $call:ident, $module:ident) => {
        $(#[$text])*
        pub struct $name;

        impl Row for $name {
            type Call<'a> = $call<'a>;

            fn fixed(visit: &mut $module::Visit) -> Result<(), String> {
                $module::fixed(visit)
            }

            fn random(seed: u64, count: usize, visit: &mut $module::Visit) -> Result<(), String> {
                $module::random(seed, count, visit)
            }

            fn fixed_calls() -> usize {
                static COUNT: OnceLock<usize> = OnceLock::new();
                *COUNT.get_or_init(|| {
                    let mut count = 0;
                    let counted = $module::fixed(&mut |_, _| {
                        count += 1;
                        Ok(())
                    });
                    counted.map(|()| count).expect("counting does not fail")
                })
            }
        }
    };
}

row!(
    /// Those that look something up in knowledges.
    Lookups, Call, calls
);
row!(
    /// Those that say which of two knowledges is ahead.
    Comparings, Comparing, comparing
);
row!(
    /// Those that write a knowledge.
    Writings, Writing, writing
);
row!(
    /// Those that read stores, batches and tables of records.
    Readings, Reading, reading
);
row!(
    /// Those that write a store or a batch.
    Changings, Changing, changing
);
