//! The vector files of the repository are what the reference writes.

use reference::vectors::{all_programs, files, ground, repository_root, Case};

#[test]
fn vector_files_are_up_to_date() {
    let root = repository_root();
    for program in all_programs() {
        let folder = program.folder(&root);
        if !folder.is_dir() {
            continue;
        }
        for (file, expected) in [("stdin", &program.stdin), ("stdout", &program.stdout)] {
            let written = std::fs::read(folder.join(file)).unwrap_or_default();
            assert!(
                written == *expected,
                "{}/{file} differs from what the reference writes; run the bin `vectors`",
                program.program
            );
        }
    }
}

#[test]
fn a_case_is_framed_with_its_lengths() {
    let case = Case::new(b'P', &[b"ab", b""], "0 1".to_string());
    let framed = files("any", &[case]);
    assert_eq!(framed.stdin, b"P\x00\x00\x00\x02ab\x00\x00\x00\x00");
    assert_eq!(framed.stdout, b"0 1\n");
}

#[test]
fn vector_files_keep_their_size() {
    for program in all_programs() {
        assert!(program.stdin.len() < 1_260_000, "{}", program.program);
    }
    let cases = ground::cases();
    assert!(cases.len() > 4_000);
    assert!(files("ground_vectors", &cases).stdin.len() < 200_000);
}

/// Every fault of a moment and of a date is among the cases, and real ones.
#[test]
fn ground_vectors_have_every_answer() {
    let cases = ground::cases();
    let occurs = |kind: u8, answer: &str| {
        let fitting = |case: &&Case| case.kind == kind && case.answer == answer;
        cases.iter().filter(fitting).count() >= 3
    };
    for fault in 0..=8 {
        assert!(occurs(b'M', &fault.to_string()), "moment {fault}");
    }
    for fault in 0..=5 {
        assert!(occurs(b'D', &fault.to_string()), "date {fault}");
    }
    for plate in ["0 0", "1 0", "1 1"] {
        assert!(occurs(b'P', plate), "plate {plate}");
    }
    assert!(occurs(b'N', "-") && occurs(b'N', "0"));
}
