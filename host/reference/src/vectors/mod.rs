//! Vector files: cases with their expected answers, for the programs that run
//! the same questions through the library.
//!
//! A case is one kind byte, then its parts, each a four-byte big-endian length
//! and its bytes. Its answer is one line.

pub mod book;
pub mod debits;
pub mod ground;
mod ground_fields;
pub mod judge;
pub mod judging;
pub mod tic;
pub mod tif;

use std::fs;
use std::io;
use std::path::{Path, PathBuf};

/// One question, and the line that answers it.
#[derive(Clone, Debug, PartialEq, Eq)]
pub struct Case {
    pub kind: u8,
    pub parts: Vec<Vec<u8>>,
    pub answer: String,
}

impl Case {
    pub fn new(kind: u8, parts: &[&[u8]], answer: String) -> Case {
        Case {
            kind,
            parts: parts.iter().map(|part| part.to_vec()).collect(),
            answer,
        }
    }
}

/// The vector files of one program: what it reads and what it is to print.
#[derive(Clone, Debug, PartialEq, Eq)]
pub struct VectorFiles {
    pub program: &'static str,
    pub stdin: Vec<u8>,
    pub stdout: Vec<u8>,
}

/// All programs that have vector files.
pub fn all_programs() -> Vec<VectorFiles> {
    vec![
        files("ground_vectors", &ground::cases()),
        files("tif_vectors", &tif::cases()),
        files("book_vectors", &book::cases()),
        files("debits_vectors", &debits::cases()),
        files("tic_vectors", &tic::cases()),
        files("judging_vectors", &judging::cases()),
        files("judge_vectors", &judge::cases()),
    ]
}

/// The two files of a list of cases.
pub fn files(program: &'static str, cases: &[Case]) -> VectorFiles {
    VectorFiles {
        program,
        stdin: cases.iter().flat_map(framed).collect(),
        stdout: cases.iter().flat_map(answer_line).collect(),
    }
}

fn framed(case: &Case) -> Vec<u8> {
    let mut text = vec![case.kind];
    for part in &case.parts {
        let length = u32::try_from(part.len()).expect("a part fits four bytes of length");
        text.extend(length.to_be_bytes());
        text.extend(part);
    }
    text
}

fn answer_line(case: &Case) -> Vec<u8> {
    format!("{}\n", case.answer).into_bytes()
}

impl VectorFiles {
    /// The folder of the program in the repository.
    pub fn folder(&self, root: &Path) -> PathBuf {
        root.join("crates").join(self.program)
    }

    /// Writes both files, making the folder where it is missing.
    pub fn write(&self, root: &Path) -> io::Result<()> {
        let folder = self.folder(root);
        fs::create_dir_all(&folder)?;
        fs::write(folder.join("stdin"), &self.stdin)?;
        fs::write(folder.join("stdout"), &self.stdout)
    }
}

/// The root of the repository that holds this crate.
pub fn repository_root() -> PathBuf {
    Path::new(env!("CARGO_MANIFEST_DIR"))
        .ancestors()
        .nth(2)
        .expect("the crate stands two folders below the root")
        .to_path_buf()
}
