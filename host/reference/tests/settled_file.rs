//! Settled readings on the file and its lines.

mod common;

use common::{
    acceptance, answer, at, credit, credit_call, debit, debit_verdict, debit_with, verdict_numbers,
    with,
};
use reference::acceptance::Side;
use reference::call::Call;
use reference::columns::{body, tif_footer, tif_header, Columns};
use reference::example::{
    self, line, passage, worked_call, BLANK_PAN, BLANK_PLATE, PAN, UNKNOWN_PAN,
};

/// The worked call with other columns in its header.
fn with_header(columns: Columns, text: &[u8]) -> Call {
    let mut call = worked_call();
    columns.put(&mut call.tif, text);
    call
}

#[test]
fn the_side_is_bytes_74_to_76_of_any_file() {
    let side_of = |tif: &[u8]| {
        let call = Call {
            tif: tif.to_vec(),
            ..worked_call()
        };
        answer(&call).summary.printed()
    };
    let whole = worked_call().tif;
    assert_eq!(side_of(&whole[..75]), "05 000 0 0 0 0 0 0");
    assert_eq!(side_of(&whole[..76]), "05 DEB 0 0 0 0 0 0");
    assert_eq!(side_of(&[]), "05 000 0 0 0 0 0 0");
    let feeds = [vec![b'\n'; 73], b"CRE".to_vec()].concat();
    assert_eq!(side_of(&feeds), "05 CRE 0 0 0 0 0 0");
}

#[test]
fn with_04_the_sums_are_zero() {
    let mut call = worked_call();
    let footer = call.tif.len() - tif_footer::WIDTH;
    tif_footer::TOTAL.put(&mut call.tif[footer..], b"000000000017851");
    let answer = answer(&call);
    assert_eq!(answer.summary.printed(), "04 DEB 0 0 0 0 0 0");
    assert_eq!(
        &answer.tic[196..196 + 31],
        b"2000000000000000000000000000000"
    );
    assert!(answer.records.is_empty());
}

#[test]
fn counts_are_compared_by_all_their_digits() {
    let records = |text: &[u8]| acceptance(&with_header(tif_header::RECORDS, text));
    assert_eq!(records(b"000000000000003"), 1);
    assert_eq!(records(b"100000000000003"), 3);
    assert_eq!(records(b"              3"), 5);
    let transactions = |text: &[u8]| acceptance(&with_header(tif_header::TRANSACTIONS, text));
    assert_eq!(transactions(b"000000000000003"), 1);
    assert_eq!(transactions(b"000000000000000"), 1);
    assert_eq!(transactions(b"000000000000002"), 3);
    assert_eq!(transactions(b"               "), 5);
}

#[test]
fn what_05_passes_over() {
    let previous = with_header(tif_header::PREVIOUS_SEQUENCE, &[0; 21]);
    assert_eq!(acceptance(&previous), 1);
    let currency = debit_with(body::CURRENCY, b"SEK");
    assert_eq!(debit_verdict(currency), 0);
    let mut strange = debit();
    for column in [
        23, 33, 34, 60, 75, 83, 92, 126, 148, 160, 264, 300, 353, 809,
    ] {
        strange[column - 1] = 0;
    }
    assert_eq!(debit_verdict(strange), 0);
}

/// Each header column that 05 looks at, one byte changed at a time.
#[test]
fn what_05_looks_at_in_the_header() {
    for column in 1..=162 {
        let mut call = worked_call();
        call.tif[column - 1] = b'\x01';
        let passed_over = (35..=55).contains(&column);
        assert_eq!(
            acceptance(&call),
            if passed_over { 1 } else { 5 },
            "column {column}"
        );
    }
}

#[test]
fn table_1_has_pairs_and_no_ranges() {
    let lawful_debits = ["C1", "D1", "C3", "D3", "C4", "C8", "D8"];
    for letter in ["C", "D", "R", "c"] {
        for digit in 0..=9 {
            let kind = format!("{letter}{digit}");
            let debit = debit_verdict(line(kind.as_bytes(), &passage()));
            let lawful = lawful_debits.contains(&kind.as_str());
            assert_eq!(debit, if lawful { 0 } else { 1 }, "{kind} in a DEB file");
            let credit = credit_call(
                &[common::debit()],
                &[0],
                &[line(kind.as_bytes(), &passage())],
            );
            let expected = if kind == "R2" { 0 } else { 1 };
            assert_eq!(verdict_numbers(&credit), [expected], "{kind} in a CRE file");
        }
    }
}

#[test]
fn vehicle_codes() {
    let classes = ["01", "02", "12", "22", "31", "32", "41", "51", "63", "71"];
    let fuels = [
        "01", "02", "03", "04", "05", "06", "09", "10", "11", "12", "13", "14", "15", "20", "21",
        "22",
    ];
    for number in 0..=99 {
        let code = format!("{number:02}");
        let refused = |lawful: bool| if lawful { 0 } else { 4 };
        let class = debit_verdict(debit_with(body::TARIFF_CLASS, code.as_bytes()));
        assert_eq!(
            class,
            refused(classes.contains(&code.as_str())),
            "class {code}"
        );
        let emission = debit_verdict(debit_with(body::EMISSION, code.as_bytes()));
        assert_eq!(
            emission,
            refused(number <= 7 || number == 15),
            "emission {code}"
        );
        for hybrid in ["Y", "N", "y", " "] {
            let fuel = format!("{code}{hybrid}");
            let lawful = fuels.contains(&code.as_str()) && "YN".contains(hybrid);
            let verdict = debit_verdict(debit_with(body::FUEL, fuel.as_bytes()));
            assert_eq!(verdict, refused(lawful), "fuel {fuel}");
        }
    }
}

#[test]
fn an_unknown_pan_does_not_fall_back_to_the_plate() {
    assert_eq!(debit_verdict(debit_with(body::PAN, UNKNOWN_PAN)), 7);
    assert_eq!(
        debit_verdict(debit_with(body::PAN, b"957800010000000001 ")),
        7
    );
    assert_eq!(
        debit_verdict(debit_with(body::PAN, b" 957800010000000001")),
        7
    );
    assert_eq!(
        debit_verdict(debit_with(body::PAN, b"\x00                  ")),
        7
    );
}

#[test]
fn with_a_pan_the_plate_is_not_compared() {
    assert_eq!(
        debit_verdict(debit_with(body::DETECTED, b"ZZ99999   SE")),
        0
    );
    assert_eq!(debit_verdict(debit_with(body::DETECTED, BLANK_PLATE)), 0);
}

#[test]
fn with_a_blank_pan_only_the_detected_plate_counts() {
    let blank = debit_with(body::PAN, BLANK_PAN);
    assert_eq!(debit_verdict(blank.clone()), 0);
    let verdict = |detected: &[u8]| debit_verdict(with(blank.clone(), body::DETECTED, detected));
    assert_eq!(verdict(b"AB12345   SE"), 7);
    assert_eq!(verdict(b"AB1234    NO"), 7);
    assert_eq!(verdict(BLANK_PLATE), 7);
    let undeclared = with(blank.clone(), body::DECLARED_PLATE, b"          ");
    let undeclared = with(undeclared, body::DECLARED_NATION, b"  ");
    assert_eq!(debit_verdict(undeclared), 0);
}

#[test]
fn l6_counts_refused_lines_and_compares_the_type() {
    let verdicts = |lines: &[Vec<u8>]| verdict_numbers(&example::call(Side::Debit, lines));
    let refused = debit_with(body::FUEL, b"07N");
    assert_eq!(verdicts(&[refused, debit()]), [4, 6]);
    assert_eq!(verdicts(&[debit(), debit(), debit()]), [0, 6, 6]);
    assert_eq!(verdicts(&[debit(), line(b"C8", &passage())]), [0, 0]);
    let other_rest = with(debit(), body::COUNTER, b"000000000009");
    let other_rest = with(other_rest, body::AMOUNT_WITH_VAT, b"00000000001");
    assert_eq!(verdicts(&[debit(), other_rest]), [0, 6]);
    let later = line(b"C1", &at(b"20260614081531"));
    assert_eq!(verdicts(&[debit(), later]), [0, 0]);
}

/// Each column of a line that L6 compares, one byte changed at a time.
#[test]
fn what_l6_compares() {
    for column in 2..=809 {
        let mut other = debit();
        other[column - 1] ^= 1;
        if other[column - 1] == b'\n' || (137..=147).contains(&column) {
            continue;
        }
        let verdicts = verdict_numbers(&example::call(Side::Debit, &[other, debit()]));
        let compared = [(2, 22), (61, 74), (77, 82), (84, 91), (252, 263)];
        let compared = compared
            .iter()
            .any(|(first, last)| (first..=last).contains(&&column));
        assert_eq!(verdicts[1], if compared { 0 } else { 6 }, "column {column}");
    }
}

/// Each column of a line that L8 compares, one byte changed at a time.
#[test]
fn what_l8_compares() {
    for column in 3..=809 {
        let mut other = debit();
        other[column - 1] ^= 1;
        let call = credit_call(&[other], &[0], &[credit()]);
        let compared = [
            (4, 22),
            (61, 74),
            (77, 82),
            (84, 91),
            (252, 263),
            (137, 147),
        ];
        let compared = compared
            .iter()
            .any(|(first, last)| (first..=last).contains(&&column));
        assert_eq!(
            verdict_numbers(&call),
            [if compared { 8 } else { 0 }],
            "column {column}"
        );
    }
}

#[test]
fn equal_lines_are_lawful_in_a_cre_file() {
    let call = credit_call(&[debit(), debit()], &[0, 0], &[credit(), credit()]);
    assert_eq!(verdict_numbers(&call), [0, 0]);
}

#[test]
fn a_refused_line_keeps_its_fee() {
    let refused = debit_with(body::FUEL, b"07N");
    let unreadable = debit_with(body::FEE_WITHOUT_VAT, b"0000000400A");
    let answer = answer(&example::call(Side::Debit, &[refused, unreadable]));
    assert_eq!(answer.words(), [4, 2]);
    assert_eq!(answer.records[0].fee.0, 4_000);
    assert_eq!(answer.records[1].fee.0, 0);
    assert_eq!(answer.records[1].number, 2);
    assert_eq!(answer.records[1].amount.0, 5_000);
}

/// The first verdict in order decides.
#[test]
fn verdicts_in_order() {
    let mut bad = with(debit(), body::TYPE, b"D4");
    let spoilt: [(usize, Columns, &[u8]); 5] = [
        (2, body::LANE, b"00A0"),
        (3, body::EXIT_ACTOR, b"100124"),
        (4, body::EMISSION, b"08"),
        (5, body::DETECTED_NATION, b"no"),
        (7, body::PAN, UNKNOWN_PAN),
    ];
    for (_, columns, text) in spoilt {
        columns.put(&mut bad, text);
    }
    let verdict = |line: &[u8]| debit_verdict(line.to_vec());
    assert_eq!(verdict(&bad), 1);
    body::TYPE.put(&mut bad, b"C1");
    for (number, columns, _) in spoilt {
        assert_eq!(verdict(&bad), number);
        columns.put(&mut bad, columns.of(&debit()));
    }
    assert_eq!(body::PAN.of(&bad), PAN);
    assert_eq!(verdict(&bad), 0);
}
