//! Compares the engine with the reference on a run of inputs and on rows of calls, and says how often each answer was given; and tries
//! the laws of the calls that write a knowledge, calls at the borders of the engine's shorter ways, and random lists of calls on stores.
//!
//! `SYNC_INPUTS` sets the number of inputs, and of calls; `SYNC_BORDERS` that of calls at each border; `SYNC_LISTS` that of lists;
//! `SYNC_SEED` sets the seed.

use std::fmt::Display;
use std::process::ExitCode;

use inputs::{BORDERS, Plan};
use outside::stand_in::Reference;
use outside::{borders, check, engine, lists};

fn main() -> ExitCode {
    let plan = Plan::from_environment();
    println!("inputs: {} from seed {}", plan.inputs, plan.seed);
    let passed = said(check::run(&plan, engine::check));
    let passed = said(outside::calls::run(&plan, &engine::Linked)) && passed;
    let passed = said(outside::comparing::run(&plan.of_pairs(), &engine::Linked)) && passed;
    let passed = said(outside::comparing::triples::run(&plan, &engine::Linked)) && passed;
    let passed = said(outside::writing::run(&plan, &engine::Linked)) && passed;
    let passed = said(outside::laws::run(&plan, &engine::Linked)) && passed;
    let passed = said(outside::reading::run(&plan.on_stores(), &engine::Linked)) && passed;
    let passed = said(outside::changing::run(&plan.on_stores(), &engine::Linked)) && passed;
    let at_border = |border| said(borders::run(border, &plan.at_a_border(), &engine::Linked));
    let passed = BORDERS.into_iter().filter(|border| !at_border(*border)).count() == 0 && passed;
    let lists = lists::Plan::from_environment();
    println!("lists of calls: {} from seed {}", lists.lists, lists.seed);
    let passed = said(lists::run(&lists, &engine::Linked, &Reference)) && passed;
    if passed { ExitCode::SUCCESS } else { ExitCode::FAILURE }
}

/// Says how a run ended; gives whether it passed.
fn said(run: Result<impl Display, String>) -> bool {
    match &run {
        Ok(tally) => println!("inputs: passed: {tally}"),
        Err(error) => eprintln!("inputs: {error}"),
    }
    run.is_ok()
}
