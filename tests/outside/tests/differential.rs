//! The engine and the reference give the same answer on every input and on every call of the run, and the engine's calls that write
//! keep their laws.
//!
//! `SYNC_INPUTS` sets the number of inputs, and of calls; `SYNC_SEED` sets the seed.

use inputs::Plan;
use outside::{check, engine};

#[test]
fn engine_and_reference_agree_on_the_check() {
    let plan = Plan::from_environment();
    println!("{} inputs from seed {}", plan.inputs, plan.seed);
    match check::run(&plan, engine::check) {
        Ok(tally) => println!("{tally}"),
        Err(error) => panic!("{error}"),
    }
}

#[test]
fn engine_and_reference_agree_on_the_other_calls() {
    let plan = Plan::from_environment();
    println!("{} calls from seed {}", plan.inputs, plan.seed);
    match outside::calls::run(&plan, &engine::Linked) {
        Ok(tally) => println!("{tally}"),
        Err(error) => panic!("{error}"),
    }
}

#[test]
fn engine_and_reference_agree_on_compare_and_it_says_what_cover_says() {
    let plan = Plan::from_environment().of_pairs();
    println!("{} pairs from seed {}", plan.inputs, plan.seed);
    match outside::comparing::run(&plan, &engine::Linked) {
        Ok(seen) => println!("{seen}"),
        Err(error) => panic!("{error}"),
    }
}

#[test]
fn engine_and_reference_agree_on_compare_in_a_buffer_of_every_length() {
    match outside::comparing::every_room(&engine::Linked) {
        Ok(calls) => {
            println!("{calls} compares in buffers of every length");
            assert_eq!(calls, 7 * 113);
        }
        Err(error) => panic!("{error}"),
    }
}

#[test]
fn behind_and_behind_gives_behind() {
    match outside::comparing::triples::run(&Plan::from_environment(), &engine::Linked) {
        Ok(triples) => println!("{triples}"),
        Err(error) => panic!("{error}"),
    }
}

#[test]
fn engine_and_reference_agree_on_the_calls_that_write() {
    let plan = Plan::from_environment();
    println!("{} calls that write from seed {}", plan.inputs, plan.seed);
    match outside::writing::run(&plan, &engine::Linked) {
        Ok(tally) => println!("{tally}"),
        Err(error) => panic!("{error}"),
    }
}

#[test]
fn the_engine_keeps_the_laws_of_the_calls_that_write() {
    let plan = Plan::from_environment();
    match outside::laws::run(&plan, &engine::Linked) {
        Ok(tally) => println!("{tally}"),
        Err(error) => panic!("{error}"),
    }
}

#[test]
fn engine_and_reference_agree_on_the_calls_that_read_stores() {
    let plan = Plan::from_environment().on_stores();
    println!("{} calls that read stores from seed {}", plan.inputs, plan.seed);
    match outside::reading::run(&plan, &engine::Linked) {
        Ok(tally) => println!("{tally}"),
        Err(error) => panic!("{error}"),
    }
}

#[test]
fn engine_reference_and_slow_model_agree_on_every_share_of_a_store() {
    match outside::reading::every_share(&engine::Linked) {
        Ok(shares) => assert_eq!(shares, 33_153),
        Err(error) => panic!("{error}"),
    }
}

#[test]
fn one_record_of_a_new_item_moves_coverage_by_no_more_than_the_bound() {
    match outside::moves::every_pair(&engine::Linked) {
        Ok(seen) => {
            println!("{} pairs of stores, the bound met for {} counts of records", seen.pairs, seen.met);
            assert_eq!((seen.pairs, seen.met), (65_792, 182));
        }
        Err(error) => panic!("{error}"),
    }
}

#[test]
fn engine_and_reference_agree_on_the_calls_that_write_stores() {
    let plan = Plan::from_environment().on_stores();
    println!("{} calls that write stores and batches from seed {}", plan.inputs, plan.seed);
    match outside::changing::run(&plan, &engine::Linked) {
        Ok(tally) => println!("{tally}"),
        Err(error) => panic!("{error}"),
    }
}
