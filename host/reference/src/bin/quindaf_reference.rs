//! Reads a job from standard input and prints its one line.

#![forbid(unsafe_code)]

use reference::job::{print_job, MOST_JOB_BYTES};
use std::io::{self, Read, Write};

fn main() -> io::Result<()> {
    let mut job = Vec::new();
    io::stdin()
        .take(MOST_JOB_BYTES as u64 + 1)
        .read_to_end(&mut job)?;
    io::stdout().write_all(print_job(&job).as_bytes())
}
