//! The plain program gives the reference's answers, so that it is a fair measure.

use bench::plain;
use compare::calls::call_difference;
use compare::run::first_found;
use compare::subject::{Subject, LIBRARY};
use compare::tics::tic_seed_difference;
use reference::generator::generate;

const SEEDS: u64 = 3_000;

/// The plain program where it has a function, the library elsewhere.
const PLAIN: Subject = Subject {
    judge: plain::judge,
    judge_with: plain::judge_with,
    read_tic: plain::read_tic,
    ..LIBRARY
};

#[test]
fn calls() {
    let differs = |seed| call_difference(&PLAIN, &generate(seed), seed as u8);
    assert_eq!(first_found(0..SEEDS, differs), None);
}

#[test]
fn tics() {
    let differs = |seed| tic_seed_difference(&PLAIN, seed);
    assert_eq!(first_found(0..SEEDS, differs), None);
}
