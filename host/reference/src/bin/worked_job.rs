//! Writes the worked example's job: `worked_job [file]`, by default
//! `examples/worked.job` of the repository.

#![forbid(unsafe_code)]

use reference::example::worked_call;
use reference::job::write_job;
use reference::vectors::repository_root;
use std::path::PathBuf;

fn main() -> std::io::Result<()> {
    let by_default = || repository_root().join("examples").join("worked.job");
    let file = std::env::args()
        .nth(1)
        .map_or_else(by_default, PathBuf::from);
    std::fs::write(file, write_job(&worked_call()))
}
