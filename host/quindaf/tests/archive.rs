//! What the archive asks of whoever links it without a C library.

use std::process::Command;

/// The names that the archive leaves to others, in order.
fn asked_for() -> Vec<String> {
    let output = Command::new("nm")
        .arg("-u")
        .arg(env!("QUINDAF_LINKED"))
        .output()
        .expect("a program named nm, as a C compiler brings it");
    assert!(output.status.success(), "{}", output.status);
    let listed = String::from_utf8(output.stdout).expect("a text");
    let named = |line: &str| line.trim().strip_prefix("U ").map(String::from);
    let mut names: Vec<String> = listed.lines().filter_map(named).collect();
    names.sort();
    names
}

#[test]
fn two_names_and_no_other() {
    assert_eq!(asked_for(), ["memcpy", "memset"]);
}
