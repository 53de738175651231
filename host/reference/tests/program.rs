//! The program's job and its printed line.

use reference::call::Call;
use reference::example::{with_table, worked_call};
use reference::generator::generate_without_table;
use reference::generator::limits::rare_limit;
use reference::job::{print_job, read_job, write_job};

#[test]
fn a_job_under_32_bytes_is_none() {
    assert_eq!(print_job(&[]), "J\n");
    assert_eq!(print_job(&[0; 31]), "J\n");
}

#[test]
fn zero_lengths_are_a_filled_job() {
    assert_eq!(print_job(&[0; 32]), "E1\n");
    assert_eq!(print_job(&[0; 33]), "J\n");
}

#[test]
fn a_job_is_filled_exactly() {
    let job = write_job(&worked_call());
    assert_eq!(print_job(&job[..job.len() - 1]), "J\n");
    assert_eq!(print_job(&[job, vec![0]].concat()), "J\n");
}

/// Lengths whose sum would come out right in 32 bits are not taken.
#[test]
fn lengths_are_added_exactly() {
    let mut job = vec![0; 32];
    job[..4].copy_from_slice(&[0xFF, 0xFF, 0xFF, 0xFF]);
    job[4..8].copy_from_slice(&[0, 0, 0, 1]);
    assert_eq!(print_job(&job), "J\n");
    job[..4].copy_from_slice(&[0x80, 0, 0, 0]);
    job[4..8].copy_from_slice(&[0x80, 0, 0, 0]);
    assert_eq!(print_job(&job), "J\n");
}

/// 65,536 bytes are a job, one more is not.
#[test]
fn the_longest_job() {
    let mut call = worked_call();
    let left = 65_536 - write_job(&call).len();
    call.tif.extend(vec![b'0'; left]);
    let job = write_job(&call);
    assert_eq!(job.len(), 65_536);
    assert_eq!(print_job(&job), "05 DEB 0 0 0 0 0 0\n");
    call.tif.push(b'0');
    assert_eq!(print_job(&write_job(&call)), "J\n");
}

#[test]
fn a_job_gives_its_call_back() {
    for seed in (0..300).filter(|&seed| rare_limit(seed).is_none()) {
        let call = generate_without_table(seed);
        let read = read_job(&write_job(&call)).expect("a small job");
        let expected = Call {
            records_lent: 128,
            output_length: 65_536,
            ..call
        };
        assert_eq!(read, expected);
    }
}

/// No job reaches E7.
#[test]
fn jobs_have_room() {
    for seed in (0..3_000).filter(|&seed| rare_limit(seed).is_none()) {
        let job = write_job(&generate_without_table(seed));
        assert_ne!(print_job(&job), "E7\n");
    }
}

/// A job lends no station table, so that its card has eight codes.
#[test]
fn a_card_of_nine_codes_is_none() {
    let job = write_job(&with_table(worked_call(), &[]));
    assert_eq!(print_job(&job), "E3\n");
}

#[test]
fn each_refusal_is_printed_with_its_number() {
    type Spoil = fn(&mut Call);
    let spoilt: [(Spoil, &str); 6] = [
        (|call| call.name.clear(), "E1\n"),
        (|call| call.reception.clear(), "E2\n"),
        (|call| call.card.clear(), "E3\n"),
        (|call| call.received_names.push(0), "E4\n"),
        (|call| call.book.clear(), "E5\n"),
        (|call| call.marks.push(0), "E6\n"),
    ];
    for (spoil, printed) in spoilt {
        let mut call = worked_call();
        spoil(&mut call);
        assert_eq!(print_job(&write_job(&call)), printed);
    }
}
