//! The worked lines of 01.

mod common;

use common::{acceptance, answer, call_number, credit, credit_call, debit, verdict_numbers};
use reference::acceptance::Side;
use reference::book::Book;
use reference::call::Call;
use reference::example::{self, worked_call, PAN, PLATE};
use reference::generator::book_model::{AgreementModel, BookModel, PeriodModel};
use reference::job::{print_job, write_job};
use reference::moment::{check_moment, MomentFault};
use reference::name::FileName;
use reference::plate::in_plate_set;
use reference::vectors::repository_root;

#[test]
fn real_and_unreal_moments() {
    assert_eq!(check_moment(b"20240229000000"), Ok(()));
    assert_eq!(check_moment(b"20230229000000"), Err(MomentFault::Day));
    assert_eq!(check_moment(b"21000229000000"), Err(MomentFault::Day));
    assert_eq!(check_moment(b"20260615240000"), Err(MomentFault::Hour));
}

#[test]
fn sequences() {
    let named = |sequence: &str| format!("TIF10012320260615{sequence}_20000B_130001");
    let lawful = |sequence| FileName::read(named(sequence).as_bytes()).is_some();
    assert!(!lawful("0000"));
    assert!(lawful("0001"));
    assert!(lawful("9999"));
    let call = Call {
        name: named("0000").into_bytes(),
        ..worked_call()
    };
    assert_eq!(call_number(&call), 1);
}

#[test]
fn a_period_covers_its_start_and_not_its_end() {
    let book = BookModel {
        agreements: vec![AgreementModel {
            pan: PAN.to_vec(),
            lease: vec![0; 12],
            periods: vec![PeriodModel::of_texts(
                PLATE,
                b"20260101000000",
                b"20260301000000",
            )],
        }],
    }
    .render();
    let book = Book::read(&book).expect("a sound book");
    let covered = |moment: &[u8]| book.cover(PAN, moment, b"", b"").is_some();
    assert!(covered(b"20260228235959"));
    assert!(!covered(b"20260301000000"));
    assert!(covered(b"20260101000000"));
    assert!(!covered(b"20251231235959"));
}

#[test]
fn plate_characters() {
    assert!(in_plate_set(0xC4));
    assert!(!in_plate_set(0xC5));
    let members = (0..=255).filter(|&byte| in_plate_set(byte)).count();
    assert_eq!(members, 10 + 26 + 26 + 5);
}

#[test]
fn two_free_debits_and_three_equal_credits() {
    let debits = [debit(), debit()];
    let credits = [credit(), credit(), credit()];
    let both_free = credit_call(&debits, &[0, 0], &credits);
    assert_eq!(verdict_numbers(&both_free), [0, 0, 8]);
    assert_eq!(answer(&both_free).marks, [1, 1]);
    assert_eq!(answer(&both_free).words(), [256, 512, 8]);
    let one_marked = credit_call(&debits, &[1, 0], &credits);
    assert_eq!(verdict_numbers(&one_marked), [0, 8, 8]);
    assert_eq!(answer(&one_marked).words(), [512, 8, 8]);
}

#[test]
fn at_most_9_999_lines_are_judged() {
    let judged = example::call(Side::Debit, &vec![debit(); 9_999]);
    assert_eq!(acceptance(&judged), 1);
    assert_eq!(answer(&judged).summary.lines.0, 9_999);
    let too_many = example::call(Side::Debit, &vec![debit(); 10_000]);
    assert_eq!(acceptance(&too_many), 5);
}

#[test]
fn the_worked_file() {
    let answer = answer(&worked_call());
    assert_eq!(verdict_numbers(&worked_call()), [0, 7, 0]);
    assert_eq!(answer.summary.printed(), "01 DEB 3 2 1 17850 5300 12550");
    let header = [
        "0",
        "20000B",
        "100123",
        "TIC100123202606150001",
        "TIF100123202606150001",
        "20260616020000",
        "NOK",
        "000000000000002",
        "000000000000001",
        "DEB",
        "000000000000002",
        "000000000000001",
        "130001",
        "      ",
        "0000000000000000000000000000000000000000000000",
        "01",
        "\n",
    ]
    .concat();
    assert_eq!(&answer.tic[..196], header.as_bytes());
}

/// Line, code and footer of the worked TIC, by their columns.
#[test]
fn the_rest_of_the_worked_tic() {
    let (call, answer) = (worked_call(), answer(&worked_call()));
    assert_eq!(answer.tic.len(), 196 + 812 + 128);
    let line = &answer.tic[196..196 + 812];
    let refused = &call.tif[162 + 810..162 + 2 * 810];
    assert_eq!(line[..809], refused[..809]);
    assert_eq!(&line[809..], b"07\n");
    let footer = format!("2{:015}{:015}{}\n", 5_300, 12_550, "0".repeat(96));
    assert_eq!(&answer.tic[196 + 812..], footer.as_bytes());
}

#[test]
fn the_worked_job() {
    let job = write_job(&worked_call());
    assert_eq!(print_job(&job), "01 DEB 3 2 1 17850 5300 12550\n");
    let file = repository_root().join("examples").join("worked.job");
    let written = std::fs::read(file).expect("the worked example's job");
    assert_eq!(written, job);
}
