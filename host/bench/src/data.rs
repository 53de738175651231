//! The files that are timed: sound calls of a given number of lines.

use reference::acceptance::Side;
use reference::call::{judge, Call};
use reference::example::{self, Passage};
use reference::generator::book_model::{AgreementModel, BookModel, PeriodModel};
use reference::generator::rng::Rng;
use reference::tst::Station;

const AGREEMENTS: usize = 1_000;
/// As many periods as a book of 1,048,576 bytes has room for with its agreements.
const PERIODS: usize = (1_048_576 - 2 - 37 * AGREEMENTS) / 40;
const FIRST_YEAR: usize = 2024;

/// A full book: 1,000 agreements, 1,048,562 bytes, a plate of its own a period.
pub fn full_book() -> BookModel {
    let agreements = (0..AGREEMENTS).map(|index| AgreementModel {
        pan: pan(index),
        lease: b"LEASE-000000".to_vec(),
        periods: (0..periods_of(index))
            .map(|period| period_of(index, period))
            .collect(),
    });
    BookModel {
        agreements: agreements.collect(),
    }
}

fn periods_of(agreement: usize) -> usize {
    PERIODS / AGREEMENTS + usize::from(agreement < PERIODS % AGREEMENTS)
}

fn pan(agreement: usize) -> Vec<u8> {
    format!("9578{:015}", 7 * agreement + 3).into_bytes()
}

fn plate(agreement: usize, period: usize) -> Vec<u8> {
    format!("V{:03}{period:02}    NO", agreement % 1_000).into_bytes()
}

/// One calendar month a period, from the first of 2024.
fn period_of(agreement: usize, period: usize) -> PeriodModel {
    let plate = plate(agreement, period);
    PeriodModel::of_texts(&plate, &month(period), &month(period + 1))
}

fn month(number: usize) -> Vec<u8> {
    let (year, month) = (FIRST_YEAR + number / 12, number % 12 + 1);
    format!("{year:04}{month:02}01000000").into_bytes()
}

/// A passage in a period of the book; no two passages are alike.
fn passage_in(rng: &mut Rng, index: usize) -> Passage {
    let agreement = rng.below(AGREEMENTS);
    let period = rng.below(periods_of(agreement));
    let mut moment = month(period);
    let within = format!(
        "{:02}{:02}{:02}{:02}",
        1 + index % 28,
        index % 24,
        index % 60,
        7
    );
    moment[6..14].copy_from_slice(within.as_bytes());
    Passage {
        pan: pan(agreement),
        moment,
        actor: example::SENDER.to_vec(),
        station_and_lane: format!("{index:08}").into_bytes(),
        detected: plate(agreement, period),
        amount: 1_000 + index as u64,
    }
}

fn passages(count: usize) -> Vec<Passage> {
    let mut rng = Rng::new(count as u64, 5);
    (0..count)
        .map(|index| passage_in(&mut rng, index))
        .collect()
}

fn call(side: Side, lines: &[Vec<u8>]) -> Call {
    Call {
        book: full_book().render(),
        records_lent: 9_999,
        output_length: 324 + 812 * lines.len(),
        ..example::call(side, lines)
    }
}

/// DEB, every line accepted by its PAN.
pub fn debits_by_pan(count: usize) -> Call {
    let lines = passages(count);
    let lines: Vec<Vec<u8>> = lines
        .iter()
        .map(|line| example::line(b"C1", line))
        .collect();
    call(Side::Debit, &lines)
}

/// The same against a table of as many stations, each line at one of them.
pub fn debits_with_stations(count: usize) -> Call {
    with_stations(debits_by_pan(count), count)
}

/// DEB without a line, against the example's book of one agreement.
pub fn no_line() -> Call {
    Call {
        output_length: 324,
        ..example::call(Side::Debit, &[])
    }
}

/// The call with a table of the stations of so many passages, in another order.
pub fn with_stations(call: Call, count: usize) -> Call {
    let mut passages = passages(count);
    Rng::new(count as u64, 7).shuffle(&mut passages);
    let stations: Vec<Station> = passages.iter().map(station_of).collect();
    example::with_table(call, &stations)
}

fn station_of(passage: &Passage) -> Station<'_> {
    let (station, lane) = passage.station_and_lane.split_at(4);
    Station {
        actor: &passage.actor,
        station,
        lane,
    }
}

/// DEB, every line accepted by its plate.
pub fn debits_by_plate(count: usize) -> Call {
    let blank = passages(count).into_iter().map(|passage| Passage {
        pan: example::BLANK_PAN.to_vec(),
        ..passage
    });
    let lines: Vec<Vec<u8>> = blank.map(|line| example::line(b"C1", &line)).collect();
    call(Side::Debit, &lines)
}

/// CRE, every line with a debit of its own among as many, in another order.
pub fn credits(count: usize) -> Call {
    let passages = passages(count);
    let mut order: Vec<usize> = (0..count).collect();
    Rng::new(count as u64, 6).shuffle(&mut order);
    let credits = order
        .iter()
        .map(|&index| example::line(b"R2", &passages[index]));
    let debits: Vec<Vec<u8>> = passages
        .iter()
        .map(|line| example::line(b"C1", line))
        .collect();
    Call {
        debits: debits.concat(),
        marks: vec![0; count],
        ..call(Side::Credit, &credits.collect::<Vec<_>>())
    }
}

/// DEB, every line refused last of all, by L7: its PAN is in no agreement.
pub fn all_refused(count: usize) -> Call {
    let unknown = passages(count).into_iter().map(|passage| Passage {
        pan: example::UNKNOWN_PAN.to_vec(),
        ..passage
    });
    let lines: Vec<Vec<u8>> = unknown.map(|line| example::line(b"C1", &line)).collect();
    call(Side::Debit, &lines)
}

/// A TIC that lists so many lines.
pub fn tic(count: usize) -> Vec<u8> {
    judge(&all_refused(count)).expect("a sound call").tic
}

#[cfg(test)]
mod tests {
    use super::*;

    fn printed(call: &Call) -> String {
        let printed = judge(call).expect("a sound call").summary.printed();
        printed.split(' ').take(5).collect::<Vec<_>>().join(" ")
    }

    #[test]
    fn the_book_is_full() {
        let book = full_book().render();
        assert_eq!(book.len(), 1_048_562);
        assert!(book.len() + 40 > 1_048_576);
    }

    #[test]
    fn files_are_what_they_are_said_to_be() {
        assert_eq!(printed(&debits_by_pan(999)), "00 DEB 999 999 0");
        assert_eq!(printed(&debits_by_plate(999)), "00 DEB 999 999 0");
        assert_eq!(printed(&credits(999)), "00 CRE 999 999 0");
        assert_eq!(printed(&all_refused(999)), "01 DEB 999 0 999");
        assert_eq!(tic(999).len(), 324 + 812 * 999);
        assert_eq!(printed(&no_line()), "00 DEB 0 0 0");
    }

    /// Each line's station is in the table, so that the table refuses none.
    #[test]
    fn tables_have_the_stations_of_the_lines() {
        let with = debits_with_stations(999);
        assert_eq!(with.tst.len(), 192 + 233 * 999);
        assert_eq!(printed(&with), "00 DEB 999 999 0");
        let alone = with_stations(no_line(), 999);
        assert_eq!(alone.tst, with.tst);
        assert_eq!(printed(&alone), "00 DEB 0 0 0");
    }

    /// The plates of the periods differ.
    #[test]
    fn a_plate_covers_in_one_period() {
        let answer = judge(&debits_by_plate(999)).expect("a sound call");
        let by_pan = judge(&debits_by_pan(999)).expect("a sound call");
        assert_eq!(answer.words(), by_pan.words());
    }
}
