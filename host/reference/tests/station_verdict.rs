//! L9 among the line verdicts, E8 among the call numbers, and the card of a call
//! that lends a station table.

mod common;

use common::{
    acceptance, answer, call_number, credit, credit_call, debit, debit_with, verdict_numbers, with,
};
use reference::acceptance::Side;
use reference::call::Call;
use reference::columns::{body, tif_footer, tif_header, Columns};
use reference::example::{
    self, call, with_table, worked_call, CARD, CARD_WITH_TABLE, NAME, STATION, UNKNOWN_PAN,
};
use reference::tst::Station;
use reference::tst_writer::write_tst;
use std::slice;

/// The verdict on a DEB line against a table of the example's station.
fn verdict_with_table(line: Vec<u8>) -> usize {
    verdict_numbers(&with_table(call(Side::Debit, &[line]), &[STATION]))[0]
}

#[test]
fn a_line_in_the_table_is_judged_on() {
    assert_eq!(verdict_with_table(debit()), 0);
    let worked = with_table(worked_call(), &[STATION]);
    assert_eq!(verdict_numbers(&worked), [0, 7, 0]);
    assert_eq!(answer(&worked), answer(&worked_call()));
}

#[test]
fn each_part_of_the_triple_counts() {
    assert_eq!(verdict_with_table(debit_with(body::STATION, b"0043")), 9);
    assert_eq!(verdict_with_table(debit_with(body::LANE, b"0003")), 9);
    let elsewhere = Station {
        actor: b"100124",
        ..STATION
    };
    let table_of_another = with_table(call(Side::Debit, &[debit()]), &[elsewhere]);
    assert_eq!(verdict_numbers(&table_of_another), [9]);
}

/// Parts that stand in the table, but not together in one line of it.
#[test]
fn the_parts_stand_in_one_line() {
    let stations = [
        Station {
            actor: b"100124",
            ..STATION
        },
        Station {
            station: b"0043",
            ..STATION
        },
        Station {
            lane: b"0003",
            ..STATION
        },
        Station {
            station: STATION.lane,
            lane: STATION.station,
            ..STATION
        },
    ];
    let without = with_table(call(Side::Debit, &[debit()]), &stations);
    assert_eq!(verdict_numbers(&without), [9]);
    let stations = [stations.as_slice(), &[STATION]].concat();
    let within = with_table(call(Side::Debit, &[debit()]), &stations);
    assert_eq!(verdict_numbers(&within), [0]);
}

/// Columns 75-76 and 83, country and network code, are not compared.
#[test]
fn country_and_network_code_play_no_part() {
    let country = Columns::new(75, 76);
    let network = Columns::new(83, 83);
    assert_eq!(verdict_with_table(debit_with(country, b"SE")), 0);
    assert_eq!(verdict_with_table(debit_with(network, b"7")), 0);
}

/// A table of 192 bytes is lent, and has no station.
#[test]
fn a_table_of_no_station() {
    let debits = with_table(worked_call(), &[]);
    assert_eq!(debits.tst.len(), 192);
    assert_eq!(verdict_numbers(&debits), [9, 9, 9]);
    let credits = with_table(credit_call(&[debit()], &[0], &[credit()]), &[]);
    assert_eq!(verdict_numbers(&credits), [9]);
    let no_line = with_table(call(Side::Debit, &[]), &[]);
    assert_eq!(answer(&no_line).summary.printed(), "00 DEB 0 0 0 0 0 0");
}

/// Each flaw alone and with L9: those of L1 to L3 go before it, the others after.
#[test]
fn l9_stands_between_l3_and_l4() {
    let flaws: [(usize, Columns, &[u8]); 9] = [
        (1, body::TYPE, b"D4"),
        (2, body::EXIT_MOMENT, b"20230229000000"),
        (2, body::COUNTER, b"00000000000A"),
        (2, body::STATION, b"00A2"),
        (2, body::LANE, b"   2"),
        (3, body::EXIT_ACTOR, b"100124"),
        (4, body::EMISSION, b"08"),
        (5, body::DETECTED_NATION, b"no"),
        (7, body::PAN, UNKNOWN_PAN),
    ];
    for (number, columns, text) in flaws {
        let flawed = debit_with(columns, text);
        let flawed_call = call(Side::Debit, slice::from_ref(&flawed));
        let passed = Station::passed(&flawed);
        if passed.is_in_form() {
            let known = with_table(flawed_call.clone(), &[passed]);
            assert_eq!(verdict_numbers(&known), [number]);
        }
        let unknown = with_table(flawed_call, &[]);
        let expected = if number <= 3 { number } else { 9 };
        assert_eq!(verdict_numbers(&unknown), [expected], "L{number} and L9");
    }
}

/// A repeated line at an unknown station is L9, as the line before it.
#[test]
fn l9_comes_before_l6() {
    let twice = call(Side::Debit, &[debit(), debit()]);
    assert_eq!(verdict_numbers(&with_table(twice.clone(), &[])), [9, 9]);
    assert_eq!(verdict_numbers(&with_table(twice, &[STATION])), [0, 6]);
}

/// The actor is the sender's own, and yet the table must have it: a station of
/// another actor is L3 before it is looked up.
#[test]
fn a_known_station_of_another_actor_is_l3() {
    let elsewhere = debit_with(body::EXIT_ACTOR, b"100124");
    let known = [Station::passed(&elsewhere)];
    let call = call(Side::Debit, slice::from_ref(&elsewhere));
    assert_eq!(verdict_numbers(&with_table(call, &known)), [3]);
}

/// A credit with L9 takes no debit: the next that agrees with it takes it.
#[test]
fn a_credit_at_an_unknown_station_marks_nothing() {
    let moved = |line: Vec<u8>| with(line, body::LANE, b"0003");
    let debits = [moved(debit()), debit()];
    let credits = [moved(credit()), credit()];
    let call = credit_call(&debits, &[0, 0], &credits);
    assert_eq!(answer(&call).marks, [1, 1]);
    let call = with_table(call, &[STATION]);
    assert_eq!(verdict_numbers(&call), [9, 0]);
    assert_eq!(answer(&call).marks, [0, 1]);
    assert_eq!(answer(&call).words(), [9, 512]);
}

/// The record of a line with L9 carries no place; amount and fee are there.
#[test]
fn the_record_and_the_word() {
    let answer = answer(&with_table(worked_call(), &[]));
    assert_eq!(answer.words(), [9, 9, 9]);
    assert_eq!(answer.records[1].amount.0, 12_550);
    assert_eq!(answer.records[1].fee.0, 10_040);
    assert_eq!(answer.summary.printed(), "01 DEB 3 0 3 17850 0 17850");
}

/// The codes stand in the order of the verdict numbers, L9's as the ninth.
#[test]
fn the_ninth_code_is_that_of_l9() {
    let card = b"L1L2L3L4L5L6L7L8L9".to_vec();
    let lines = [
        debit_with(body::EXIT_ACTOR, b"100124"),
        debit_with(body::LANE, b"0003"),
        debit_with(body::EMISSION, b"08"),
        debit_with(body::PAN, UNKNOWN_PAN),
    ];
    let call = Call {
        card,
        ..with_table(call(Side::Debit, &lines), &[STATION])
    };
    let tic = answer(&call).tic;
    let code = |k: usize| &tic[196 + 812 * k + 809..196 + 812 * k + 811];
    assert_eq!(
        [code(0), code(1), code(2), code(3)],
        [b"L3", b"L9", b"L4", b"L7"]
    );
}

/// 18 bytes of card with a table, 16 without; a table out of form is lent too.
#[test]
fn the_length_of_the_card() {
    let sound = write_tst(&[STATION]);
    let damaged = b"0".to_vec();
    let number = |card: &[u8], tst: &[u8]| {
        call_number(&Call {
            card: card.to_vec(),
            tst: tst.to_vec(),
            ..worked_call()
        })
    };
    assert_eq!(number(CARD, &[]), 0);
    assert_eq!(number(CARD_WITH_TABLE, &sound), 0);
    assert_eq!(number(CARD_WITH_TABLE, &[]), 3);
    assert_eq!(number(CARD, &sound), 3);
    assert_eq!(number(CARD, &damaged), 3);
    assert_eq!(number(CARD_WITH_TABLE, &damaged), 8);
    assert_eq!(number(&CARD_WITH_TABLE[..17], &sound), 3);
    assert_eq!(number(b"0909081004140713080", &sound), 3);
    assert_eq!(number(b"09090810041407130x", &sound), 3);
    assert_eq!(number(b"0909081004140713\xC48", &damaged), 3);
}

/// E1 to E6 go before E8.
#[test]
fn e8_comes_after_e6() {
    type Spoil = fn(&mut Call);
    let spoilt: [(Spoil, usize); 6] = [
        (|call| call.name.clear(), 1),
        (|call| call.reception.clear(), 2),
        (|call| call.card.clear(), 3),
        (|call| call.received_names.push(0), 4),
        (|call| call.book.clear(), 5),
        (|call| call.marks.push(0), 6),
    ];
    let damaged = Call {
        tst: b"2\n".to_vec(),
        ..with_table(worked_call(), &[])
    };
    assert_eq!(call_number(&damaged), 8);
    for (spoil, number) in spoilt {
        let mut call = damaged.clone();
        spoil(&mut call);
        assert_eq!(call_number(&call), number);
    }
}

/// A call that 02 to 05 would answer, and one that E7 would refuse, are E8 where
/// the table is out of form.
#[test]
fn e8_comes_before_acceptance_and_room() {
    type Spoil = fn(&mut Call);
    let spoilt: [(Spoil, u64); 4] = [
        (|call| call.received_names = NAME.to_vec(), 2),
        (
            |call| tif_header::RECORDS.put(&mut call.tif, b"000000000000004"),
            3,
        ),
        (
            |call| {
                let footer = call.tif.len() - tif_footer::WIDTH;
                tif_footer::TOTAL.put(&mut call.tif[footer..], b"000000000017851");
            },
            4,
        ),
        (|call| call.tif.clear(), 5),
    ];
    let sound = with_table(worked_call(), &[STATION]);
    for (spoil, number) in spoilt {
        let mut call = sound.clone();
        spoil(&mut call);
        assert_eq!(acceptance(&call), number);
        call.tst.pop();
        assert_eq!(call_number(&call), 8);
    }
    let mut tight = Call {
        output_length: 0,
        records_lent: 0,
        ..sound
    };
    assert_eq!(call_number(&tight), 7);
    tight.tst.pop();
    assert_eq!(call_number(&tight), 8);
}

/// With no table lent no line has L9, wherever it passed.
#[test]
fn without_a_table_no_station_is_unknown() {
    let anywhere = debit_with(body::STATION_AND_LANE, b"99999999");
    assert_eq!(common::debit_verdict(anywhere), 0);
    assert_eq!(example::call(Side::Debit, &[]).tst, []);
}
