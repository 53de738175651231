//! Settled readings on the TIC, and the round trips of writing and reading.

mod common;

use common::{answer, debit};
use reference::acceptance::{Acceptance, Side};
use reference::call::judge;
use reference::columns::{tic_footer, tic_header, Columns};
use reference::example::{self, worked_call};
use reference::generator::rng::Rng;
use reference::generator::tics::{tic_of, tic_question};
use reference::generator::{generate, limits::rare_limit};
use reference::numbers::{Count, Gross};
use reference::tic_reader::{listed_place, read, rewrite, RewriteFault, TicFault};

fn worked_tic() -> Vec<u8> {
    answer(&worked_call()).tic
}

/// The T number of a TIC, or 0 for one that reads.
fn fault(tic: &[u8]) -> usize {
    read(tic).map_or_else(TicFault::number, |_| 0)
}

fn with_header(tic: &[u8], columns: Columns, text: &[u8]) -> Vec<u8> {
    let mut tic = tic.to_vec();
    columns.put(&mut tic, text);
    tic
}

fn with_footer(tic: &[u8], columns: Columns, text: &[u8]) -> Vec<u8> {
    let mut tic = tic.to_vec();
    let footer = tic.len() - tic_footer::WIDTH;
    columns.put(&mut tic[footer..], text);
    tic
}

fn both_names(tic: &[u8], offset: usize, text: &[u8]) -> Vec<u8> {
    let mut tic = tic.to_vec();
    for start in [13 + offset, 34 + offset] {
        tic[start..start + text.len()].copy_from_slice(text);
    }
    tic
}

#[test]
fn a_listed_line_is_columns_1_to_809() {
    let (call, tic) = (worked_call(), worked_tic());
    let place = listed_place(&tic, 1).expect("one listed line");
    assert_eq!((place.line, place.code), (196, 196 + 809));
    let refused = &call.tif[162 + 810..162 + 2 * 810];
    assert_eq!(tic[place.line..place.line + 809], refused[..809]);
    assert_eq!(&tic[place.code..place.code + 2], b"07");
}

#[test]
fn no_such_listed_line() {
    let tic = worked_tic();
    for k in [0, 2, 10_000, usize::MAX] {
        assert_eq!(listed_place(&tic, k), Err(TicFault::NoSuchLine));
    }
    let broken = &tic[1..];
    assert_eq!(listed_place(broken, 1), Err(TicFault::LengthOrLineFeeds));
    assert_eq!(listed_place(broken, 0), Err(TicFault::LengthOrLineFeeds));
}

#[test]
fn t1_length_and_line_feeds() {
    let tic = worked_tic();
    assert_eq!(fault(&tic), 0);
    assert_eq!(fault(&tic[..tic.len() - 1]), 1);
    assert_eq!(fault(&[]), 1);
    for place in 0..tic.len() {
        let mut moved = tic.clone();
        moved[place] = if moved[place] == b'\n' { b'0' } else { b'\n' };
        assert_eq!(fault(&moved), 1, "place {place}");
    }
}

#[test]
fn t1_ten_thousand_listed_lines() {
    let mut call = example::call(Side::Debit, &vec![debit(); 9_999]);
    call.book = vec![0, 0];
    let tic = answer(&call).tic;
    assert_eq!(read(&tic).expect("9,999 listed lines").listed.len(), 9_999);
    let mut longer = tic.clone();
    longer.splice(196..196, tic[196..196 + 812].to_vec());
    assert_eq!(fault(&longer), 1);
}

#[test]
fn t2_header_columns() {
    let tic = worked_tic();
    assert_eq!(fault(&both_names(&tic, 9, b"20230229")), 2);
    assert_eq!(fault(&both_names(&tic, 17, b"0000")), 2);
    assert_eq!(fault(&both_names(&tic, 17, b"9999")), 0);
    for side in [b"deb", b"   ", b"001"] {
        assert_eq!(fault(&with_header(&tic, tic_header::SIDE, side)), 2);
    }
    let not_digits = b"              2";
    assert_eq!(
        fault(&with_header(&tic, tic_header::ACCEPTED, not_digits)),
        2
    );
    assert_eq!(fault(&with_header(&tic, tic_header::ACCEPTANCE, b" 1")), 2);
    assert_eq!(
        fault(&with_header(&tic, tic_header::TIC_NUMBER, b"000001")),
        2
    );
}

/// Every header byte but the counts and the acceptance is fixed by the values.
#[test]
fn t2_every_header_byte() {
    let tic = worked_tic();
    for place in 0..195 {
        let mut changed = tic.clone();
        changed[place] = 1;
        assert_eq!(fault(&changed), 2, "place {place}");
    }
}

#[test]
fn t3_counts() {
    let tic = worked_tic();
    let counts = |accepted: &[u8], rejected: &[u8]| {
        let tic = with_header(&tic, tic_header::ACCEPTED, accepted);
        let tic = with_header(&tic, tic_header::ACCEPTED_TRANSACTIONS, accepted);
        let tic = with_header(&tic, tic_header::REJECTED, rejected);
        fault(&with_header(
            &tic,
            tic_header::REJECTED_TRANSACTIONS,
            rejected,
        ))
    };
    assert_eq!(counts(b"000000000009998", b"000000000000001"), 0);
    assert_eq!(counts(b"000000000009999", b"000000000000001"), 3);
    assert_eq!(counts(b"999999999999999", b"000000000000001"), 3);
    assert_eq!(counts(b"000000000000002", b"000000000000002"), 3);
    assert_eq!(counts(b"000000000000002", b"000000000000000"), 3);
    let transactions = tic_header::ACCEPTED_TRANSACTIONS;
    assert_eq!(
        fault(&with_header(&tic, transactions, b"000000000000003")),
        3
    );
    assert_eq!(fault(&with_header(&tic, tic_header::SIDE, b"000")), 3);
    assert_eq!(fault(&with_header(&tic, tic_header::SIDE, b"CRE")), 0);
    for acceptance in ["00", "02", "03", "04", "05", "06", "99"] {
        let changed = with_header(&tic, tic_header::ACCEPTANCE, acceptance.as_bytes());
        assert_eq!(fault(&changed), 3, "{acceptance}");
    }
}

/// A file refused as a whole reads with any side, "000" among them.
#[test]
fn refused_files_with_000_read() {
    let mut rng = Rng::new(0, 20);
    for acceptance in &Acceptance::ALL[2..] {
        let tic = tic_of(&mut rng, *acceptance, 0);
        for side in [b"000", b"CRE", b"DEB"] {
            assert_eq!(fault(&with_header(&tic, tic_header::SIDE, side)), 0);
        }
        let one = b"000000000000001";
        let counted = with_header(&tic, tic_header::ACCEPTED, one);
        let counted = with_header(&counted, tic_header::ACCEPTED_TRANSACTIONS, one);
        assert_eq!(fault(&counted), 3);
    }
}

#[test]
fn t4_listed_lines() {
    let tic = worked_tic();
    let changed = |column: usize, byte: u8| {
        let mut tic = tic.clone();
        tic[196 + column - 1] = byte;
        fault(&tic)
    };
    assert_eq!(changed(1, b'2'), 4);
    for column in 137..=147 {
        assert_eq!(changed(column, b'/'), 4);
        assert_eq!(changed(column, b':'), 4);
    }
    for column in [810, 811] {
        assert_eq!(changed(column, b'a'), 4);
        assert_eq!(changed(column, b' '), 4);
        assert_eq!(changed(column, b'Z'), 0);
    }
    for column in (2..=136).chain(148..=809) {
        assert_eq!(changed(column, 0xFF), 0, "column {column}");
    }
}

#[test]
fn t5_footer() {
    let tic = worked_tic();
    let accepted = |text: &[u8]| fault(&with_footer(&tic, tic_footer::ACCEPTED_SUM, text));
    assert_eq!(accepted(b"999999999999999"), 0);
    assert_eq!(accepted(b"000000000000000"), 0);
    assert_eq!(accepted(b"00000000000000A"), 5);
    let rejected = |text: &[u8]| fault(&with_footer(&tic, tic_footer::REJECTED_SUM, text));
    assert_eq!(rejected(b"000000000012550"), 0);
    assert_eq!(rejected(b"000000000012551"), 5);
    assert_eq!(fault(&with_footer(&tic, tic_footer::REGISTER, b"1")), 5);
    let footer = tic.len() - tic_footer::WIDTH;
    for place in 31..127 {
        let mut changed = tic.clone();
        changed[footer + place] = b'1';
        assert_eq!(fault(&changed), 5);
    }
}

/// With no line accepted the accepted sum is zero, with 00 to 05 alike.
#[test]
fn t5_accepted_sum_of_nothing() {
    let mut rng = Rng::new(0, 21);
    let empty = answer(&example::call(Side::Debit, &[])).tic;
    let mut tics = vec![empty];
    tics.extend(
        Acceptance::ALL[2..]
            .iter()
            .map(|&code| tic_of(&mut rng, code, 0)),
    );
    for tic in tics {
        assert_eq!(fault(&tic), 0);
        let one = b"000000000000001";
        assert_eq!(fault(&with_footer(&tic, tic_footer::ACCEPTED_SUM, one)), 5);
        assert_eq!(fault(&with_footer(&tic, tic_footer::REJECTED_SUM, one)), 5);
    }
}

#[test]
fn the_values_of_the_worked_tic() {
    let tic = worked_tic();
    let values = read(&tic).expect("the worked TIC");
    assert_eq!(values.acceptance, Acceptance::Partial);
    assert_eq!(values.side, Some(Side::Debit));
    assert_eq!((values.accepted, values.rejected()), (Count(2), Count(1)));
    assert_eq!(values.accepted_sum, Gross(5_300));
    assert_eq!(values.rejected_sum(), Gross(12_550));
    assert_eq!(values.tif_receiver, b"20000B");
    assert_eq!(values.reception, b"20260616020000");
}

#[test]
fn writing_what_was_read_into_too_short_an_output() {
    let tic = worked_tic();
    assert_eq!(rewrite(&tic, tic.len()), Ok(tic.clone()));
    let short = rewrite(&tic, tic.len() - 1);
    assert_eq!(short, Err(RewriteFault::OutputTooShort));
    let unread = rewrite(&tic[1..], 0);
    assert_eq!(
        unread,
        Err(RewriteFault::Unread(TicFault::LengthOrLineFeeds))
    );
}

/// What is read is written back byte for byte.
#[test]
fn read_then_write_gives_the_same_bytes() {
    for seed in 0..4_000 {
        let tic = tic_question(seed).tic;
        if let Ok(values) = read(&tic) {
            assert!(values.render() == tic, "seed {seed}");
        }
    }
}

/// What is written reads back as the refused lines, in order, with their sums.
#[test]
fn write_then_read_gives_the_refusals() {
    for seed in (0..4_000).filter(|&seed| rare_limit(seed).is_none()) {
        let call = generate(seed);
        let Ok(answer) = judge(&call) else { continue };
        let values = read(&answer.tic).expect("a TIC that was written");
        let refused: Vec<&[u8]> = answer
            .records
            .iter()
            .filter(|record| !record.verdict.is_acceptance())
            .map(|record| &call.tif[162 + 810 * (record.number - 1)..][..809])
            .collect();
        let listed: Vec<&[u8]> = values.listed.iter().map(|listed| listed.line).collect();
        assert_eq!(listed, refused, "seed {seed}");
        assert_eq!(values.accepted, answer.summary.accepted);
        assert_eq!(values.rejected(), answer.summary.refused);
        assert_eq!(values.accepted_sum, answer.summary.accepted_amount);
        assert_eq!(values.rejected_sum(), answer.summary.refused_amount);
        assert_eq!(values.side, answer.summary.side);
    }
}
