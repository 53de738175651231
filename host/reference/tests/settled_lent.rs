//! Settled readings on what is lent: names, moments, card, book, debits, marks.

mod common;

use common::{acceptance, answer, call_number, credit, credit_call, debit, with};
use reference::book::Book;
use reference::call::Call;
use reference::columns::body;
use reference::example::{book, worked_call, NAME, NO_END, PLATE};
use reference::generator::book_model::{AgreementModel, BookModel, PeriodModel};
use reference::moment::{check_date, check_moment, MomentFault};
use reference::name::FileName;
use reference::plate::{lawful_in_book, lawful_on_line};
use reference::tst_writer::write_tst;

fn with_book(book: &BookModel) -> Call {
    Call {
        book: book.render(),
        ..worked_call()
    }
}

#[test]
fn a_mark_is_the_byte_0_or_1() {
    for (mark, number) in [(0, 0), (1, 0), (b'0', 6), (b'1', 6), (2, 6), (255, 6)] {
        let call = credit_call(&[debit()], &[mark], &[]);
        assert_eq!(call_number(&call), number, "mark {mark}");
    }
}

#[test]
fn capitals_are_a_to_z_only() {
    let sender = |byte: u8| {
        let mut name = NAME.to_vec();
        name[3] = byte;
        FileName::read(&name).is_some()
    };
    assert!(sender(b'A') && sender(b'Z') && sender(b'0') && sender(b'9'));
    assert!(!sender(b'@') && !sender(b'[') && !sender(b'a') && !sender(0xC4));
    let card = |byte: u8| {
        let mut call = worked_call();
        call.card[15] = byte;
        call_number(&call)
    };
    assert_eq!(
        [card(b'Z'), card(b'z'), card(0xD6), card(b' ')],
        [0, 3, 3, 3]
    );
    assert!(lawful_in_book(&PLATE[..10], b"NO"));
    assert!(!lawful_in_book(&PLATE[..10], b"\xC4\xD6"));
}

#[test]
fn year_0000_is_not_real() {
    assert_eq!(check_date(b"00000101"), Err(MomentFault::Year));
    assert_eq!(check_date(b"00010101"), Ok(()));
    assert!(FileName::read(b"TIF100123000006150001_20000B_130001").is_none());
    assert!(FileName::read(b"TIF100123000106150001_20000B_130001").is_some());
}

/// Gregorian in all years: 1500 is no leap year, 1600 is one, 0004 is one.
#[test]
fn the_calendar_is_gregorian_throughout() {
    assert_eq!(check_date(b"15000229"), Err(MomentFault::Day));
    assert_eq!(check_date(b"16000229"), Ok(()));
    assert_eq!(check_date(b"00040229"), Ok(()));
}

/// Length, then digits, then year, month, day, hour, minute, second.
#[test]
fn the_first_wrong_part_of_a_moment() {
    let first_wrong: [(&[u8], MomentFault); 9] = [
        (b"2026061524000", MomentFault::Length),
        (b"000013000000A0", MomentFault::NotDigits),
        (b"00001300246060", MomentFault::Year),
        (b"20261300246060", MomentFault::Month),
        (b"20260631246060", MomentFault::Day),
        (b"20260630246060", MomentFault::Hour),
        (b"20260630236060", MomentFault::Minute),
        (b"20260630235960", MomentFault::Second),
        (b"20260600235959", MomentFault::Day),
    ];
    for (moment, fault) in first_wrong {
        assert_eq!(check_moment(moment), Err(fault));
    }
}

#[test]
fn a_received_name_fills_its_slot() {
    let mut call = worked_call();
    assert_eq!(acceptance(&call), 1);
    call.received_names = vec![0xFF; 70];
    assert_eq!(acceptance(&call), 1);
    call.received_names[10..45].copy_from_slice(NAME);
    assert_eq!(acceptance(&call), 1);
    call.received_names[35..].copy_from_slice(NAME);
    assert_eq!(acceptance(&call), 2);
    call.received_names.pop();
    assert_eq!(call_number(&call), 4);
}

#[test]
fn the_smallest_book_is_two_zero_bytes() {
    let read = |bytes: &[u8]| Book::read(bytes).is_some();
    assert!(read(&[0, 0]));
    assert!(!read(&[]) && !read(&[0]) && !read(&[0, 0, 0]) && !read(&[0, 1]));
}

#[test]
fn two_agreements_may_lease_one_plate_at_one_time() {
    let mut twice = book();
    let mut second = twice.agreements[0].clone();
    second.pan = b"9578000100000000018".to_vec();
    twice.agreements.push(second);
    let answer = answer(&with_book(&twice));
    let by_plate = 256 + 2 * 16_777_216;
    assert_eq!(answer.words(), [by_plate, 7, by_plate]);
}

#[test]
fn fourteen_nines_end_the_last_period_only() {
    assert_eq!(check_moment(NO_END), Err(MomentFault::Month));
    let mut changed = book();
    changed.agreements[0].periods[0].end = NO_END.to_vec();
    assert_eq!(call_number(&with_book(&changed)), 5);
    let mut changed = book();
    changed.agreements[0].periods[1].start = NO_END.to_vec();
    assert_eq!(call_number(&with_book(&changed)), 5);
    let call = Call {
        reception: NO_END.to_vec(),
        ..worked_call()
    };
    assert_eq!(call_number(&call), 2);
}

/// 9999-12-31 23:59:59 is a real end, and lies before the nines.
#[test]
fn the_last_real_moment_is_an_ordinary_end() {
    let mut changed = book();
    changed.agreements[0].periods[1].end = b"99991231235959".to_vec();
    changed.agreements[0]
        .periods
        .push(PeriodModel::of_texts(PLATE, b"99991231235959", NO_END));
    assert_eq!(call_number(&with_book(&changed)), 0);
}

/// A PAN that is the beginning of another comes before it: blank is below the digits.
#[test]
fn pans_rise_by_bytes() {
    let agreement = |pan: &[u8]| AgreementModel {
        pan: pan.to_vec(),
        ..book().agreements[0].clone()
    };
    let short = agreement(b"9                  ");
    let long = agreement(b"90                 ");
    let sound =
        |agreements: Vec<AgreementModel>| Book::read(&BookModel { agreements }.render()).is_some();
    assert!(sound(vec![short.clone(), long.clone()]));
    assert!(!sound(vec![long.clone(), short.clone()]));
    assert!(!sound(vec![short.clone(), short]));
}

/// E6 looks at columns 1, 2, 137-147 and 810 of a debit and at nothing else.
#[test]
fn what_e6_looks_at() {
    for column in 1..=810 {
        let mut strange = debit();
        strange[column - 1] = if strange[column - 1] == b'\n' {
            b' '
        } else {
            b'\n'
        };
        let looked_at = column <= 2 || (137..=147).contains(&column) || column == 810;
        let number = call_number(&credit_call(&[strange], &[0], &[]));
        assert_eq!(number, if looked_at { 6 } else { 0 }, "column {column}");
    }
    let unreal = with(debit(), body::EXIT_MOMENT, b"20230229000000");
    assert_eq!(call_number(&credit_call(&[unreal], &[0], &[credit()])), 0);
    let other_type = with(debit(), body::TYPE, b"D\x00");
    assert_eq!(call_number(&credit_call(&[other_type], &[0], &[])), 0);
}

/// E1 to E6 come before 02, and before the side that does not use them.
#[test]
fn every_call_is_tested_whole() {
    let received = Call {
        received_names: NAME.to_vec(),
        ..worked_call()
    };
    assert_eq!(acceptance(&received), 2);
    let broken = Call {
        book: Vec::new(),
        ..received.clone()
    };
    assert_eq!(call_number(&broken), 5);
    let broken = Call {
        marks: vec![0],
        ..received
    };
    assert_eq!(call_number(&broken), 6);
    let credits = Call {
        book: vec![0],
        ..credit_call(&[debit()], &[0], &[credit()])
    };
    assert_eq!(call_number(&credits), 5);
}

/// The first call number in order is given.
#[test]
fn call_numbers_in_order() {
    let mut call = Call {
        tst: vec![0],
        ..Call::default()
    };
    assert_eq!(call_number(&call), 1);
    call.name = NAME.to_vec();
    assert_eq!(call_number(&call), 2);
    call.reception = b"20260616020000".to_vec();
    assert_eq!(call_number(&call), 3);
    call.card = b"000000000000000000".to_vec();
    call.received_names = vec![0];
    assert_eq!(call_number(&call), 4);
    call.received_names.clear();
    assert_eq!(call_number(&call), 5);
    call.book = vec![0, 0];
    call.marks = vec![0];
    assert_eq!(call_number(&call), 6);
    call.marks.clear();
    assert_eq!(call_number(&call), 8);
    call.tst = write_tst(&[]);
    assert_eq!(call_number(&call), 7);
    call.output_length = 324;
    assert_eq!(acceptance(&call), 5);
}

#[test]
fn blank_is_20_hex_alone() {
    assert!(lawful_on_line(b"          ", b"  "));
    assert!(!lawful_on_line(b"         \xA0", b"  "));
    assert!(!lawful_on_line(b"AB12345\x00  ", b"NO"));
    assert!(!lawful_on_line(b"AB12345\t  ", b"NO"));
}
