//! Room for the TIC and the records, to the byte and to the record (E7).

mod common;

use common::{answer, call_number, credit, credit_call, debit};
use reference::acceptance::Side;
use reference::call::Call;
use reference::example::{self, line, passage, worked_call, UNKNOWN_PAN};

fn lent(call: &Call, output_length: usize, records_lent: usize) -> usize {
    call_number(&Call {
        output_length,
        records_lent,
        ..call.clone()
    })
}

#[test]
fn exactly_enough_is_enough() {
    let call = worked_call();
    assert_eq!(lent(&call, 324 + 812, 3), 0);
    assert_eq!(lent(&call, 324 + 812 - 1, 3), 7);
    assert_eq!(lent(&call, 324 + 812, 2), 7);
}

#[test]
fn a_file_accepted_in_full_needs_records_too() {
    let call = credit_call(&[debit()], &[0], &[credit()]);
    assert_eq!(answer(&call).summary.acceptance.number(), 0);
    assert_eq!(lent(&call, 324, 1), 0);
    assert_eq!(lent(&call, 324, 0), 7);
    assert_eq!(lent(&call, 323, 1), 7);
}

#[test]
fn no_line_needs_no_record() {
    let call = example::call(Side::Debit, &[]);
    assert_eq!(answer(&call).summary.printed(), "00 DEB 0 0 0 0 0 0");
    assert_eq!(lent(&call, 324, 0), 0);
    assert_eq!(lent(&call, 323, 0), 7);
}

/// 02 to 05 ask for 324 bytes and no record, whatever the file's length.
#[test]
fn a_file_refused_as_a_whole_needs_no_record() {
    let mut call = worked_call();
    call.tif[0] = b'1';
    assert_eq!(answer(&call).summary.printed(), "05 DEB 0 0 0 0 0 0");
    assert_eq!(lent(&call, 324, 0), 0);
    assert_eq!(lent(&call, 323, 128), 7);
    call.received_names = call.name.clone();
    assert_eq!(answer(&call).summary.acceptance.number(), 2);
    assert_eq!(lent(&call, 324, 0), 0);
    assert_eq!(lent(&call, 323, 0), 7);
}

/// E7 comes last: a call with another fault and no room has the other fault.
#[test]
fn room_is_tested_last() {
    let mut call = worked_call();
    call.marks = vec![0];
    assert_eq!(lent(&call, 0, 0), 6);
}

#[test]
fn all_lines_refused_at_the_limit() {
    let mut unknown = passage();
    unknown.pan = UNKNOWN_PAN.to_vec();
    unknown.amount = 99_999_999_999;
    let call = example::call(Side::Debit, &vec![line(b"C1", &unknown); 9_999]);
    let answer = answer(&call);
    let sum: u64 = 9_999 * 99_999_999_999;
    let printed = format!("01 DEB 9999 0 9999 {sum} 0 {sum}");
    assert_eq!(answer.summary.printed(), printed);
    assert_eq!(answer.tic.len(), 324 + 812 * 9_999);
    assert_eq!(lent(&call, 324 + 812 * 9_999, 9_999), 0);
    assert_eq!(lent(&call, 324 + 812 * 9_999 - 1, 9_999), 7);
    assert_eq!(lent(&call, 324 + 812 * 9_999, 9_998), 7);
}
