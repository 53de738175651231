//! The header file serves a C program that links the library.

use reference::call::Call;
use reference::columns::body;
use reference::example::{with_table, worked_call, STATION};
use reference::job::write_job;
use reference::lines::TIF;
use std::fs;
use std::io::Write;
use std::path::{Path, PathBuf};
use std::process::{Command, Stdio};

fn in_this_crate(path: &str) -> PathBuf {
    Path::new(env!("CARGO_MANIFEST_DIR")).join(path)
}

/// Compiles `worked.c` against the header, every warning an error.
fn compiled(name: &str) -> PathBuf {
    let program = Path::new(env!("CARGO_TARGET_TMPDIR")).join(name);
    let status = Command::new("cc")
        .args([
            "-std=c99",
            "-Wall",
            "-Wextra",
            "-Wpedantic",
            "-Werror",
            "-O2",
        ])
        .arg("-I")
        .arg(in_this_crate("../include"))
        .arg(in_this_crate("tests/worked.c"))
        .arg(env!("QUINDAF_LINKED"))
        .arg("-o")
        .arg(&program)
        .status()
        .expect("a C compiler named cc");
    assert!(status.success(), "the C program compiles");
    program
}

/// What the program prints for a call; its table goes by a file if it has one.
fn printed(program: &Path, call: &Call) -> String {
    let mut command = Command::new(program);
    if !call.tst.is_empty() {
        let file = program.with_extension("tst");
        fs::write(&file, &call.tst).expect("the table is written");
        command.arg(file);
    }
    let mut child = command
        .stdin(Stdio::piped())
        .stdout(Stdio::piped())
        .spawn()
        .expect("the program starts");
    let mut stdin = child.stdin.take().expect("a piped standard input");
    let job = write_job(call);
    stdin.write_all(&job).expect("the program reads its job");
    drop(stdin);
    let output = child.wait_with_output().expect("the program ends");
    assert!(output.status.success(), "{}", output.status);
    String::from_utf8(output.stdout).expect("a text")
}

#[test]
fn the_worked_example_from_c() {
    let program = compiled("worked");
    let mut call = worked_call();
    let expected = "01 DEB 3 2 1 17850 5300 12550\n\
                    line 1: verdict 0, a 1, b 2\n\
                    line 2: verdict 7, a 0, b 0\n\
                    line 3: verdict 0, a 1, b 2\n\
                    listed 1: type C1, code 07\n";
    assert_eq!(printed(&program, &call), expected);
    call.card.pop();
    assert_eq!(printed(&program, &call), "E3\n");
}

/// The third passage through a lane that the table does not have.
#[test]
fn a_station_table_from_c() {
    let program = compiled("worked_with_table");
    let mut call = with_table(worked_call(), &[STATION]);
    let third = TIF.place_of_line(3);
    body::LANE.put(&mut call.tif[third..], b"0003");
    let expected = "01 DEB 3 1 2 17850 5000 12850\n\
                    line 1: verdict 0, a 1, b 2\n\
                    line 2: verdict 7, a 0, b 0\n\
                    line 3: verdict 9, a 0, b 0\n\
                    listed 1: type C1, code 07\n\
                    listed 2: type C8, code 08\n";
    assert_eq!(printed(&program, &call), expected);
    call.tst.pop();
    assert_eq!(printed(&program, &call), "E8\n");
}
