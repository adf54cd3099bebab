//! Random lists of calls on stores, on the engine, the reference and the plain history machine, each with a round through a centre after it;
//! and rounds that break a premise.
//!
//! `SYNC_LISTS` sets the number of lists, `SYNC_SEED` the seed. A list that fails is printed as calls that can be pasted into a test.

use outside::engine;
use outside::lists::{Breach, Plan, run, run_broken};
use outside::stand_in::Reference;

#[test]
fn lists_of_calls_end_as_history_says() {
    let plan = Plan::from_environment();
    println!("{} lists of calls from seed {}", plan.lists, plan.seed);
    match run(&plan, &engine::Linked, &Reference) {
        Ok(lists) => println!("{lists}"),
        Err(error) => panic!("{error}"),
    }
}

#[test]
fn rounds_that_break_a_premise_can_end_unalike() {
    let plan = Plan { lists: 1_000, ..Plan::from_environment() };
    for breach in Breach::ALL {
        match run_broken(&plan, breach, &engine::Linked, &Reference) {
            Ok(broken) => println!("{broken}"),
            Err(error) => panic!("{error}"),
        }
    }
}
