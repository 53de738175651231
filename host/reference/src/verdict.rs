//! Line verdicts L1 to L9, the first that applies (01, "Line verdicts"; 02, K1).

use crate::acceptance::Side;
use crate::book::{Book, Place};
use crate::columns::body;
use crate::debits::Debits;
use crate::moment::is_real_moment;
use crate::plate::lawful_on_line;
use crate::text::all_digits;
use crate::tst::Stations;
use std::collections::HashSet;

/// Why a line is refused; the number is the paper's.
#[derive(Clone, Copy, Debug, PartialEq, Eq)]
pub enum Refusal {
    Type = 1,
    Form = 2,
    Actor = 3,
    Vehicle = 4,
    Plate = 5,
    Repeated = 6,
    Uncovered = 7,
    NoDebit = 8,
    Station = 9,
}

/// How many refusals there are, and so codes on the card: L9 is in use where a
/// station table is lent.
pub fn refusals_in_use(with_table: bool) -> usize {
    if with_table {
        9
    } else {
        8
    }
}

impl Refusal {
    pub fn number(self) -> usize {
        self as usize
    }
}

/// The verdict on a line: an acceptance carries what covers it or the debit it
/// took, counted from 1.
#[derive(Clone, Copy, Debug, PartialEq, Eq)]
pub enum Verdict {
    Covered(Place),
    Credited { debit: usize },
    Refused(Refusal),
}

impl Verdict {
    pub fn is_acceptance(self) -> bool {
        self.refusal().is_none()
    }

    pub fn refusal(self) -> Option<Refusal> {
        match self {
            Verdict::Refused(refusal) => Some(refusal),
            Verdict::Covered(_) | Verdict::Credited { .. } => None,
        }
    }

    /// The verdict as one number: number + 256·a + 16777216·b.
    pub fn word(self) -> u64 {
        let (number, a, b) = match self {
            Verdict::Covered(place) => (0, place.agreement, place.period),
            Verdict::Credited { debit } => (0, debit, 0),
            Verdict::Refused(refusal) => (refusal.number(), 0, 0),
        };
        number as u64 + 256 * a as u64 + 16_777_216 * b as u64
    }
}

/// Table 1 of 004: pairs, not ranges.
const DEBIT_TYPES: [&[u8]; 7] = [b"C1", b"D1", b"C3", b"D3", b"C4", b"C8", b"D8"];
const CREDIT_TYPES: [&[u8]; 1] = [b"R2"];

/// Table 2 of 004.
const TARIFF_CLASSES: [&[u8]; 10] = [
    b"01", b"02", b"12", b"22", b"31", b"32", b"41", b"51", b"63", b"71",
];

/// Table 3 of 004.
const EMISSION_CLASSES: [&[u8]; 9] = [
    b"00", b"01", b"02", b"03", b"04", b"05", b"06", b"07", b"15",
];

/// Table 4 of 004.
const FUEL_CODES: [&[u8]; 16] = [
    b"01", b"02", b"03", b"04", b"05", b"06", b"09", b"10", b"11", b"12", b"13", b"14", b"15",
    b"20", b"21", b"22",
];

/// A file being judged, line after line.
pub struct Judging<'a> {
    side: Side,
    sender: &'a [u8],
    stations: Option<&'a Stations<'a>>,
    book: &'a Book<'a>,
    debits: Debits<'a>,
    earlier_lines: HashSet<Vec<u8>>,
}

/// A test that refuses a line, in the order of the papers.
type Row = (Refusal, fn(&Judging, &[u8]) -> bool);

/// The tests before the search for a cover or a debit.
const ROWS: [Row; 7] = [
    (Refusal::Type, |file, line| !type_is_lawful(file.side, line)),
    (Refusal::Form, |_, line| !form_is_lawful(line)),
    (Refusal::Actor, |file, line| {
        body::EXIT_ACTOR.of(line) != file.sender
    }),
    (Refusal::Station, |file, line| file.station_is_unknown(line)),
    (Refusal::Vehicle, |_, line| !vehicle_is_lawful(line)),
    (Refusal::Plate, |_, line| !plates_are_lawful(line)),
    (Refusal::Repeated, |file, line| file.is_repeated(line)),
];

impl<'a> Judging<'a> {
    pub fn new(
        side: Side,
        sender: &'a [u8],
        stations: Option<&'a Stations<'a>>,
        book: &'a Book<'a>,
        debits: Debits<'a>,
    ) -> Self {
        Judging {
            side,
            sender,
            stations,
            book,
            debits,
            earlier_lines: HashSet::new(),
        }
    }

    /// The verdict on the next line of the file.
    pub fn judge(&mut self, line: &[u8]) -> Verdict {
        let refusing = ROWS.iter().find(|(_, refuses)| refuses(self, line));
        let verdict = match refusing {
            Some((refusal, _)) => Verdict::Refused(*refusal),
            None => self.place(line),
        };
        self.earlier_lines.insert(what_repeats(line));
        verdict
    }

    /// The debits with the marks as the judged lines left them.
    pub fn marks(&self) -> &[u8] {
        self.debits.marks()
    }

    /// L7 for a debit, L8 for a credit.
    fn place(&mut self, line: &[u8]) -> Verdict {
        match self.side {
            Side::Debit => cover(self.book, line)
                .map_or(Verdict::Refused(Refusal::Uncovered), Verdict::Covered),
            Side::Credit => self
                .debits
                .take(line)
                .map_or(Verdict::Refused(Refusal::NoDebit), |debit| {
                    Verdict::Credited { debit }
                }),
        }
    }

    /// L9: a table is lent, and the line's exit actor, station and lane are not in it.
    fn station_is_unknown(&self, line: &[u8]) -> bool {
        self.stations.is_some_and(|stations| !stations.have(line))
    }

    /// L6, DEB only: an earlier line, whichever verdict it got, has the same columns.
    fn is_repeated(&self, line: &[u8]) -> bool {
        self.side == Side::Debit && self.earlier_lines.contains(&what_repeats(line))
    }
}

fn what_repeats(line: &[u8]) -> Vec<u8> {
    let columns = body::REPEATED.iter();
    columns.flat_map(|part| part.of(line)).copied().collect()
}

fn cover(book: &Book, line: &[u8]) -> Option<Place> {
    book.cover(
        body::PAN.of(line),
        body::EXIT_MOMENT.of(line),
        body::DETECTED_PLATE.of(line),
        body::DETECTED_NATION.of(line),
    )
}

/// L1: in Table 1, and C or D in a DEB file, R in a CRE file.
fn type_is_lawful(side: Side, line: &[u8]) -> bool {
    let lawful: &[&[u8]] = match side {
        Side::Debit => &DEBIT_TYPES,
        Side::Credit => &CREDIT_TYPES,
    };
    lawful.contains(&body::TYPE.of(line))
}

/// L2: exit moment real; station, lane, counter and fee without VAT digits.
fn form_is_lawful(line: &[u8]) -> bool {
    let numeric = [
        body::STATION,
        body::LANE,
        body::COUNTER,
        body::FEE_WITHOUT_VAT,
    ];
    is_real_moment(body::EXIT_MOMENT.of(line))
        && numeric.iter().all(|columns| all_digits(columns.of(line)))
}

/// L4: tariff class, emission and fuel.
fn vehicle_is_lawful(line: &[u8]) -> bool {
    let (fuel, hybrid) = body::FUEL.of(line).split_at(2);
    TARIFF_CLASSES.contains(&body::TARIFF_CLASS.of(line))
        && EMISSION_CLASSES.contains(&body::EMISSION.of(line))
        && FUEL_CODES.contains(&fuel)
        && [b"Y".as_slice(), b"N".as_slice()].contains(&hybrid)
}

/// L5: both plates with their nations.
fn plates_are_lawful(line: &[u8]) -> bool {
    let declared = (body::DECLARED_PLATE, body::DECLARED_NATION);
    let detected = (body::DETECTED_PLATE, body::DETECTED_NATION);
    [declared, detected]
        .iter()
        .all(|(plate, nation)| lawful_on_line(plate.of(line), nation.of(line)))
}
