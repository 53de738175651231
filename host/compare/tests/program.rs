//! The proved program prints what the reference prints. It has to be built
//! before: `rt check quindaf`.

use compare::jobs::{fixed_jobs, job};
use compare::program::{job_difference, printed, program, Input};
use compare::run::first_found;
use reference::example::worked_call;
use reference::job::write_job;
use reference::vectors::repository_root;
use std::fs;
use std::path::{Path, PathBuf};

/// The least number of generated jobs; the variable asks for more.
const JOBS: u64 = 4_000;
const VARIABLE: &str = "QUINDAF_JOBS";

fn built_program() -> PathBuf {
    program().unwrap_or_else(|message| panic!("{message}"))
}

fn count() -> u64 {
    let wanted = std::env::var(VARIABLE).ok();
    let wanted = wanted.map(|text| text.parse().expect("a number of jobs"));
    wanted.unwrap_or(JOBS).max(JOBS)
}

/// Now and then in pieces, so that the program must read more than once.
fn input_of(seed: u64) -> Input {
    match seed % 16 {
        3 => Input::InPieces(4_096),
        7 => Input::InPieces(997),
        _ => Input::AtOnce,
    }
}

#[test]
fn generated_jobs() {
    let program = built_program();
    let found = first_found(0..count(), |seed| {
        job_difference(&program, &job(seed), input_of(seed))
    });
    if let Some((seed, difference)) = found {
        panic!("seed {seed}: {difference}");
    }
}

#[test]
fn jobs_at_the_limits() {
    let program = built_program();
    for job in fixed_jobs() {
        for input in [Input::AtOnce, Input::InPieces(4_096)] {
            if let Some(difference) = job_difference(&program, &job, input) {
                panic!("{difference}");
            }
        }
    }
}

#[test]
fn the_worked_example() {
    let found = printed(&built_program(), &write_job(&worked_call()), Input::AtOnce);
    let found = found.expect("the program runs");
    assert_eq!(found, b"01 DEB 3 2 1 17850 5300 12550\n");
}

/// Each job of the examples prints what stands beside it.
#[test]
fn examples_print_what_stands_beside_them() {
    let program = built_program();
    let folder = repository_root().join("examples/jobs");
    for file in jobs_in(&folder) {
        let job = fs::read(&file).expect("a job that reads");
        let expected = fs::read(file.with_extension("out")).expect("an output beside the job");
        let found = printed(&program, &job, Input::AtOnce).expect("the program runs");
        let same = found == expected;
        let found = found.escape_ascii();
        assert!(same, "{}: found \"{found}\"", file.display());
    }
}

/// The files `*.job` of a folder, none where there is no such folder.
fn jobs_in(folder: &Path) -> Vec<PathBuf> {
    let Ok(entries) = fs::read_dir(folder) else {
        return Vec::new();
    };
    let files = entries.map(|entry| entry.expect("an entry that reads").path());
    let is_job = |file: &PathBuf| file.extension().is_some_and(|extension| extension == "job");
    files.filter(is_job).collect()
}
