//! Writes the vector files: `vectors [root] [program ..]`.
//!
//! Without programs it writes the files of every program whose folder exists;
//! a program that is named has its folder made.

#![forbid(unsafe_code)]

use reference::vectors::{all_programs, repository_root};
use std::io;
use std::path::PathBuf;

fn main() -> io::Result<()> {
    let mut arguments = std::env::args().skip(1);
    let root = arguments.next().map_or_else(repository_root, PathBuf::from);
    let named: Vec<String> = arguments.collect();
    for files in all_programs() {
        let wanted = named.iter().any(|name| name == files.program);
        if wanted || (named.is_empty() && files.folder(&root).is_dir()) {
            files.write(&root)?;
            println!("{}: {} bytes in", files.program, files.stdin.len());
        }
    }
    Ok(())
}
