//! The traps of 01.

mod common;

use common::{
    acceptance, answer, at, call_number, credit, credit_call, debit, debit_verdict,
    verdict_numbers, with,
};
use reference::acceptance::Side;
use reference::call::{judge, Call};
use reference::columns::{body, tif_footer};
use reference::example::{self, book, line, passage, worked_call, END};
use reference::text::padded;

/// The total is of amounts with VAT: that of the fees without VAT gives 04.
#[test]
fn fees_without_vat_make_no_total() {
    let mut call = worked_call();
    let fees = (5_000 + 12_550 + 300) * 4 / 5;
    let footer = call.tif.len() - tif_footer::WIDTH;
    tif_footer::TOTAL.put(&mut call.tif[footer..], &padded(fees, 15));
    assert_eq!(acceptance(&call), 4);
}

/// The footer's sums are of amounts with VAT as well.
#[test]
fn the_footer_has_amounts_with_vat() {
    let answer = answer(&worked_call());
    assert_eq!(answer.summary.accepted_amount.0, 5_300);
    assert_eq!(answer.records[0].fee.0, 4_000);
    assert_eq!(answer.records[0].amount.0, 5_000);
}

/// A period's end is not covered; the next period covers it if it starts there.
#[test]
fn the_end_of_a_period_is_not_covered() {
    let mut first_only = book();
    first_only.agreements[0].periods.pop();
    let call = |moment: &[u8], book: Vec<u8>| Call {
        book,
        ..example::call(Side::Debit, &[line(b"C1", &at(moment))])
    };
    let first_only = first_only.render();
    assert_eq!(
        verdict_numbers(&call(b"20260228235959", first_only.clone())),
        [0]
    );
    assert_eq!(verdict_numbers(&call(END, first_only)), [7]);
    let next = answer(&call(END, book().render()));
    assert_eq!(next.words(), [256 + 2 * 16_777_216]);
}

/// A credit refused by L3 takes no debit: the next equal one takes it.
#[test]
fn a_credit_of_another_actor_marks_nothing() {
    let mut elsewhere = passage();
    elsewhere.actor = b"100124".to_vec();
    let debits = [line(b"C1", &elsewhere), debit()];
    let credits = [line(b"R2", &elsewhere), credit()];
    let call = credit_call(&debits, &[0, 0], &credits);
    assert_eq!(verdict_numbers(&call), [3, 0]);
    assert_eq!(answer(&call).marks, [0, 1]);
}

/// The same for every refusal before L8.
#[test]
fn a_credit_refused_earlier_marks_nothing() {
    let spoilt = [
        (1, with(credit(), body::TYPE, b"C1")),
        (2, with(credit(), body::COUNTER, b"00000000000A")),
        (4, with(credit(), body::FUEL, b"07N")),
        (5, with(credit(), body::DECLARED_NATION, b"no")),
    ];
    for (number, refused) in spoilt {
        let call = credit_call(&[debit()], &[0], &[refused, credit()]);
        assert_eq!(verdict_numbers(&call), [number, 0]);
        assert_eq!(answer(&call).marks, [1]);
    }
}

/// Too short an output gives E7, not a TIC with fewer refusals.
#[test]
fn refusals_are_not_dropped() {
    let full = answer(&worked_call()).tic.len();
    for short in [full - 1, full - 812, 324, 0] {
        let call = Call {
            output_length: short,
            ..worked_call()
        };
        assert_eq!(call_number(&call), 7, "{short} bytes");
    }
}

/// E7 marks nothing: the same call with room takes the debit afterwards.
#[test]
fn marks_stay_with_e7() {
    let call = credit_call(&[debit()], &[0], &[credit()]);
    let tight = Call {
        output_length: 323,
        ..call.clone()
    };
    assert_eq!(call_number(&tight), 7);
    assert_eq!(tight.marks, [0]);
    assert_eq!(judge(&call).expect("room enough").marks, [1]);
    let again = Call {
        marks: vec![1],
        ..call
    };
    assert_eq!(verdict_numbers(&again), [8]);
}

/// An end of a period is not covered either for a line with a blank PAN.
#[test]
fn the_end_is_not_covered_by_plate() {
    let mut blank = at(b"20251231235959");
    blank.pan = example::BLANK_PAN.to_vec();
    assert_eq!(debit_verdict(line(b"C8", &blank)), 7);
    blank.moment = example::START.to_vec();
    assert_eq!(debit_verdict(line(b"C8", &blank)), 0);
}
