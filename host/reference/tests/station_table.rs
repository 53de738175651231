//! The form of the station table: each cause of E8, and what E8 passes over.

mod common;

use common::{call_number, credit, credit_call, debit};
use reference::call::Call;
use reference::columns::{tst_header, tst_line, Columns};
use reference::example::{with_table, worked_call, STATION};
use reference::lines::TST;
use reference::tst::Station;
use reference::tst_writer::{line_text, write_tst};

const OTHER_LANE: Station = Station {
    lane: b"0003",
    ..STATION
};

/// A sound table of two stations, 192 + 2·233 bytes.
fn sound_table() -> Vec<u8> {
    write_tst(&[STATION, OTHER_LANE])
}

/// The call number of the worked call with this table.
fn number_with(tst: Vec<u8>) -> usize {
    call_number(&Call {
        tst,
        ..with_table(worked_call(), &[])
    })
}

/// The same for the sound table with some columns of its first line changed.
fn number_with_line(columns: Columns, text: &[u8]) -> usize {
    let mut tst = sound_table();
    columns.put(&mut tst[TST.header..], text);
    number_with(tst)
}

fn number_with_header(columns: Columns, text: &[u8]) -> usize {
    let mut tst = sound_table();
    columns.put(&mut tst, text);
    number_with(tst)
}

#[test]
fn a_sound_table_is_taken() {
    assert_eq!(sound_table().len(), 192 + 2 * 233);
    assert_eq!(number_with(sound_table()), 0);
    assert_eq!(number_with(write_tst(&[])), 0);
}

/// A table of any length but 192 + 233·m is none; of no bytes, it is not lent.
#[test]
fn lengths() {
    let sound = sound_table();
    for length in 1..sound.len() {
        assert_eq!(number_with(sound[..length].to_vec()), 8, "{length} bytes");
    }
    for extra in [1, 64, 128, 192, 232, 233] {
        let longer = [sound.clone(), vec![b'0'; extra]].concat();
        assert_eq!(number_with(longer), 8, "{extra} bytes more");
    }
}

#[test]
fn at_most_9_999_stations() {
    let numbers: Vec<Vec<u8>> = (0..10_000)
        .map(|number| format!("{number:04}").into_bytes())
        .collect();
    let stations: Vec<Station> = numbers
        .iter()
        .map(|number| Station {
            station: number,
            ..STATION
        })
        .collect();
    assert_eq!(number_with(write_tst(&stations[..9_999])), 0);
    assert_eq!(number_with(write_tst(&stations)), 8);
}

/// A line feed at the end of each part, and nowhere else.
#[test]
fn line_feeds() {
    let sound = sound_table();
    let ends = [127, 127 + 233, 127 + 2 * 233, 127 + 2 * 233 + 64];
    for place in 0..sound.len() {
        let mut tst = sound.clone();
        let at_end = ends.contains(&place);
        assert_eq!(tst[place] == b'\n', at_end);
        tst[place] = if at_end { b' ' } else { b'\n' };
        assert_eq!(number_with(tst), 8, "byte {place}");
    }
}

/// A part of the sound table: where it begins, its width, and the first and last
/// columns of each stretch that E8 looks at.
type LookedAt<'a> = (usize, usize, &'a [(usize, usize)]);

/// Each column of the table, one byte changed at a time to one that is no line
/// feed: those that E8 looks at, and the others.
#[test]
fn what_e8_looks_at() {
    let looked_at: [LookedAt; 3] = [
        (0, 128, &[(1, 1), (66, 80), (95, 100), (128, 128)]),
        (
            128,
            233,
            &[(1, 1), (4, 9), (61, 64), (117, 120), (233, 233)],
        ),
        (128 + 2 * 233, 64, &[(1, 1), (64, 64)]),
    ];
    for (start, width, columns) in looked_at {
        for column in 1..=width {
            let is_looked_at = columns
                .iter()
                .any(|(first, last)| (first..=last).contains(&&column));
            for byte in [0x00, b' ', b'~', 0xFF] {
                let mut tst = sound_table();
                tst[start + column - 1] = byte;
                let expected = if is_looked_at { 8 } else { 0 };
                assert_eq!(number_with(tst), expected, "column {column} after {start}");
            }
        }
    }
}

#[test]
fn the_first_column_tells_the_part() {
    for (start, right) in [(0, b'0'), (128, b'1'), (361, b'1'), (594, b'2')] {
        for byte in b'0'..=b'9' {
            let mut tst = sound_table();
            tst[start] = byte;
            let expected = if byte == right { 0 } else { 8 };
            assert_eq!(number_with(tst), expected, "{byte} at {start}");
        }
    }
}

#[test]
fn the_version_is_500001() {
    let version = |text: &[u8]| number_with_header(tst_header::VERSION, text);
    assert_eq!(version(b"500001"), 0);
    for other in [b"130001", b"500002", b"500000", b"50001 ", b"      "] {
        assert_eq!(version(other), 8);
    }
}

/// The count is compared by the value of all its digits.
#[test]
fn the_record_count_is_the_number_of_lines() {
    let records = |text: &[u8]| number_with_header(tst_header::RECORDS, text);
    assert_eq!(records(b"000000000000002"), 0);
    assert_eq!(records(b"000000000000001"), 8);
    assert_eq!(records(b"000000000000003"), 8);
    assert_eq!(records(b"000000000000000"), 8);
    assert_eq!(records(b"100000000000002"), 8);
    assert_eq!(records(b"              2"), 8);
    assert_eq!(records(b"2              "), 8);
    assert_eq!(records(b"00000000000000B"), 8);
}

#[test]
fn an_actor_is_digits_or_capitals() {
    let actor = |byte: u8| number_with_line(tst_line::ACTOR, &[b'1', b'0', byte, b'1', b'2', b'3']);
    assert!([b'0', b'9', b'A', b'Z']
        .iter()
        .all(|&byte| actor(byte) == 0));
    let strangers = b"/:@[`az{ \x00\xC4\xFF";
    assert!(strangers.iter().all(|&byte| actor(byte) == 8));
}

#[test]
fn station_and_lane_are_digits() {
    for columns in [tst_line::STATION, tst_line::LANE] {
        for place in 0..4 {
            for (byte, expected) in [(b'7', 0), (b'/', 8), (b':', 8), (b'A', 8), (b' ', 8)] {
                let mut text = *b"0000";
                text[place] = byte;
                assert_eq!(number_with_line(columns, &text), expected);
            }
        }
    }
}

/// The triple is unique, whatever else a line says and however far apart the two
/// stand; any part that differs makes another triple.
#[test]
fn a_triple_twice() {
    let actor = Station {
        actor: b"100124",
        ..STATION
    };
    let station = Station {
        station: b"0043",
        ..STATION
    };
    let all = [STATION, actor, station, OTHER_LANE];
    assert_eq!(number_with(write_tst(&all)), 0);
    for again in all {
        assert_eq!(
            number_with(write_tst(&[all.to_vec(), vec![again]].concat())),
            8
        );
        assert_eq!(
            number_with(write_tst(&[vec![again], all.to_vec()].concat())),
            8
        );
    }
    let mut tst = write_tst(&[STATION, STATION]);
    tst[TST.header + 99] = b'x';
    assert_eq!(number_with(tst), 8);
}

/// Station and lane are no number of eight digits: 0042 0002 is not 0420 0020.
#[test]
fn parts_are_compared_each_in_its_columns() {
    let shifted = Station {
        station: b"0420",
        lane: b"0020",
        ..STATION
    };
    let swapped = Station {
        station: STATION.lane,
        lane: STATION.station,
        ..STATION
    };
    assert_eq!(number_with(write_tst(&[STATION, shifted, swapped])), 0);
}

/// A line more or less than the count says, each line in form.
#[test]
fn lines_that_are_not_counted() {
    let mut more = sound_table();
    let another = Station {
        lane: b"0004",
        ..STATION
    };
    more.splice(TST.header..TST.header, line_text(&another));
    assert_eq!(number_with(more), 8);
    let mut fewer = sound_table();
    fewer.drain(TST.header..TST.header + TST.line);
    assert_eq!(number_with(fewer), 8);
}

/// A CRE file has its table tested as a DEB file has.
#[test]
fn files_of_either_side() {
    let credits = with_table(credit_call(&[debit()], &[0], &[credit()]), &[STATION]);
    assert_eq!(call_number(&credits), 0);
    let mut wrong = credits;
    wrong.tst[0] = b'1';
    assert_eq!(call_number(&wrong), 8);
}
