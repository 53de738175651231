//! The compiled program, run on jobs.

use crate::show::{shown_bytes, shown_call};
use crate::shrink_call::smallest_call;
use reference::job::{print_job, read_job, write_job};
use reference::vectors::repository_root;
use std::io::{self, ErrorKind, Write};
use std::path::{Path, PathBuf};
use std::process::{Command, Stdio};

const VARIABLE: &str = "QUINDAF_PROGRAM";

/// The proved program: `target/bin/quindaf` of the repository, or the file that
/// `QUINDAF_PROGRAM` names.
pub fn program() -> Result<PathBuf, String> {
    let program = match std::env::var_os(VARIABLE) {
        Some(named) => PathBuf::from(named),
        None => repository_root().join("target/bin/quindaf"),
    };
    if program.is_file() {
        return Ok(program);
    }
    Err(format!(
        "there is no proved program at {}\n\
         Run `tools/build.sh` in the root of the repository first,\n\
         or name the file by {VARIABLE}.",
        program.display()
    ))
}

/// What the program prints for a job on its standard input.
pub fn printed(program: &Path, job: &[u8], input: Input) -> io::Result<Vec<u8>> {
    let mut child = Command::new(program)
        .stdin(Stdio::piped())
        .stdout(Stdio::piped())
        .spawn()?;
    let mut stdin = child.stdin.take().expect("a piped standard input");
    let written = match input {
        Input::AtOnce => stdin.write_all(job),
        Input::InPieces(width) => job
            .chunks(width)
            .try_for_each(|piece| stdin.write_all(piece)),
    };
    drop(stdin);
    // A job that is too long need not be read to its end.
    if let Err(error) = written {
        if error.kind() != ErrorKind::BrokenPipe {
            return Err(error);
        }
    }
    let output = child.wait_with_output()?;
    if !output.status.success() {
        return Err(io::Error::other(format!(
            "the program ended with {}",
            output.status
        )));
    }
    Ok(output.stdout)
}

/// How a job is written to the program.
#[derive(Clone, Copy, Debug)]
pub enum Input {
    AtOnce,
    InPieces(usize),
}

/// The difference on a job, with the smallest call that shows one.
pub fn job_difference(program: &Path, job: &[u8], input: Input) -> Option<String> {
    let first = line_difference(program, job, input)?;
    let smallest = read_job(job).map(|call| {
        smallest_call(&call, &mut |call| {
            line_difference(program, &write_job(call), input).is_some()
        })
    });
    let shown = match smallest {
        Some(call) => shown_call(&call),
        None => shown_bytes(&job[..job.len().min(64)]),
    };
    Some(format!("a job of {} bytes: {first}\n{shown}", job.len()))
}

fn line_difference(program: &Path, job: &[u8], input: Input) -> Option<String> {
    let expected = print_job(job);
    match printed(program, job, input) {
        Err(error) => Some(format!("expected {expected:?}, found {error}")),
        Ok(found) if found == expected.as_bytes() => None,
        Ok(found) => Some(format!(
            "expected {expected:?}, found \"{}\"",
            found.escape_ascii()
        )),
    }
}
