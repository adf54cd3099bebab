//! The engine and the reference give the same answer at the borders of the engine's shorter ways.
//!
//! `SYNC_BORDERS` sets the number of calls at each border, `SYNC_SEED` the seed. Behind the name of each side are the number of calls
//! there and, in brackets, of those that ended as they were meant to.

use std::time::Instant;

use inputs::{BORDERS, Border, Plan};
use outside::{borders, engine};

fn agree(name: &str) {
    let border = Border::named(name).expect("there is such a border");
    let start = Instant::now();
    match borders::run(border, &Plan::from_environment().at_a_border(), &engine::Linked) {
        Ok(sides) => println!("{sides}; {:.1} s", start.elapsed().as_secs_f64()),
        Err(error) => panic!("{error}"),
    }
}

/// A test of each border by its name.
macro_rules! at {
    ($($test:ident: $name:literal,)*) => {
        $(
            #[test]
            fn $test() {
                agree($name);
            }
        )*

        #[test]
        fn each_border_has_a_test() {
            assert_eq!(BORDERS.map(|border| border.name), [$($name),*]);
        }
    };
}

at! {
    normal_form_and_one_rule_broken: "normal form",
    spans_of_all_ids_and_all_but_one: "all ids",
    owners_with_and_without_a_tick: "own tick",
    batches_that_teach_nothing_or_one_tick: "learned covered",
    vectors_with_the_same_words: "words alike",
    ids_in_one_slot: "slots of ids",
    cover_lacking_one_element: "cover by places",
}
