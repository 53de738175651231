//! The library gives what the reference gives, on generated calls and TICs.

use compare::calls::call_difference;
use compare::run::{compare_calls, compare_tics, first_found};
use compare::subject::LIBRARY;
use compare::tics::tic_difference;
use reference::call::Call;
use reference::generator::damage::Draft;
use reference::generator::limits::{at_limit, Limit};
use reference::generator::rng::Rng;
use reference::generator::room::needed;
use reference::generator::tics::TicQuestion;

/// The least number of calls; the variable asks for more.
const CALLS: u64 = 20_000;
const VARIABLE: &str = "QUINDAF_COMPARE";

fn count() -> u64 {
    let wanted = std::env::var(VARIABLE).ok();
    let wanted = wanted.map(|text| text.parse().expect("a number of calls"));
    wanted.unwrap_or(CALLS).max(CALLS)
}

fn assert_none(difference: Option<String>) {
    if let Some(report) = difference {
        panic!("{report}");
    }
}

#[test]
fn calls_without_a_difference() {
    assert_none(compare_calls(&LIBRARY, 0..count()));
}

#[test]
fn tics_without_a_difference() {
    assert_none(compare_tics(&LIBRARY, 0..count()));
}

/// A call at a limit of lines, with all the room it needs.
fn at_limit_with_room(limit: Limit) -> Call {
    let Draft { mut call, .. } = at_limit(&mut Rng::new(0, 4), limit);
    let needs = needed(&mut call).expect("a sound call");
    call.output_length = needs.output;
    call.records_lent = needs.records;
    call
}

/// All of 9,999 lines refused, into 8,119,512 bytes and 9,999 records; then a
/// byte and a record too few, and a buffer with bytes to spare.
#[test]
fn the_longest_tic_to_the_byte() {
    let exact = at_limit_with_room(Limit::RefusedLines(9_999));
    assert_eq!(exact.output_length, 8_119_512);
    assert_eq!(exact.records_lent, 9_999);
    let with_room = |output_length: usize, records_lent: usize| Call {
        output_length,
        records_lent,
        ..exact.clone()
    };
    let rooms = [
        with_room(8_119_512, 9_999),
        with_room(8_119_511, 9_999),
        with_room(8_119_512, 9_998),
        with_room(8_200_000, 20_000),
    ];
    let differs = |at: u64| call_difference(&LIBRARY, &rooms[at as usize], at as u8);
    assert_none(first_found(0..4, differs).map(|(_, difference)| difference));
}

/// 10,000 lines give 05, with 324 bytes and no record.
#[test]
fn one_line_too_many() {
    for limit in [Limit::DebitLines(10_000), Limit::CreditLines(10_000)] {
        let call = at_limit_with_room(limit);
        assert_eq!((call.output_length, call.records_lent), (324, 0));
        assert_none(call_difference(&LIBRARY, &call, 7));
    }
}

/// A table of 9,999 stations, for as many lines and for a few; 10,000 give E8, also
/// where there is no room.
#[test]
fn the_largest_station_table() {
    let calls = [
        at_limit_with_room(Limit::LinesAndStations(9_999)),
        at_limit_with_room(Limit::Stations(9_999)),
        at_limit(&mut Rng::new(0, 4), Limit::Stations(10_000)).call,
    ];
    let differs = |at: u64| call_difference(&LIBRARY, &calls[at as usize], at as u8);
    assert_none(first_found(0..3, differs).map(|(_, difference)| difference));
}

/// A TIC of 9,999 lines, read, listed and rewritten.
#[test]
fn the_longest_tic_is_read() {
    let call = at_limit_with_room(Limit::RefusedLines(9_999));
    let tic = reference::call::judge(&call).expect("an answered call").tic;
    let question = TicQuestion {
        output_length: tic.len(),
        k: 5_000,
        tic,
    };
    assert_none(tic_difference(&LIBRARY, &question));
}
