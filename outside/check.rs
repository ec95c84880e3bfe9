//! The tests from outside: the C library against an independent plain Rust program, on random inputs that are the same in every run.
//! `run-check` compiles and runs it. An argument is another seed for the random numbers.

mod check_compare;
mod check_examples;
mod check_floor;
mod check_pieces;
mod check_places;
mod check_profile;
mod check_receive;
mod check_send;
mod check_tools;
mod check_totals;
mod check_twins;
mod library;
mod plain;

use check_tools::{Random, Tally};

const SEED: u64 = 2025;

fn main() {
    let seed = std::env::args().nth(1).map_or(SEED, |text| text.parse().expect("the seed is a number"));
    let (mut random, mut tally) = (Random::new(seed), Tally::default());
    check_examples::run(&mut tally);
    check_profile::run(&mut random, &mut tally);
    check_places::run(&mut random, &mut tally);
    check_send::run(&mut random, &mut tally);
    check_receive::run(&mut random, &mut tally);
    check_pieces::run(&mut random, &mut tally);
    check_floor::run(&mut random, &mut tally);
    check_twins::run(&mut random, &mut tally);
    check_compare::run(&mut random, &mut tally);
    check_totals::run(&mut random, &mut tally);
    if !tally.report() {
        std::process::exit(1);
    }
}
