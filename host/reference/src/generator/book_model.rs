//! Agreement books as values, rendered with the offsets they determine.

use super::clock::{written, SPAN};
use super::passage::{filled_plate, pan};
use super::rng::Rng;
use crate::book::NO_END;
use crate::columns::{book_body, book_entry, book_period};

#[derive(Clone, Debug, Default, PartialEq, Eq)]
pub struct BookModel {
    pub agreements: Vec<AgreementModel>,
}

#[derive(Clone, Debug, PartialEq, Eq)]
pub struct AgreementModel {
    pub pan: Vec<u8>,
    pub lease: Vec<u8>,
    pub periods: Vec<PeriodModel>,
}

/// A period, with its moments as numbers where it was made from numbers.
#[derive(Clone, Debug, PartialEq, Eq)]
pub struct PeriodModel {
    pub plate_and_nation: Vec<u8>,
    pub start: Vec<u8>,
    pub end: Vec<u8>,
    pub start_seconds: u64,
    /// The end in seconds; for no end, a late moment that is still covered.
    pub end_seconds: u64,
}

const HOUR: u64 = 3_600;

impl BookModel {
    pub fn render(&self) -> Vec<u8> {
        let count = self.agreements.len() as u16;
        let mut book = count.to_be_bytes().to_vec();
        let mut offset = book.len() + book_entry::WIDTH * self.agreements.len();
        for agreement in &self.agreements {
            book.extend(&agreement.pan);
            book.extend((offset as u32).to_be_bytes());
            offset += agreement.body_length();
        }
        for agreement in &self.agreements {
            book.extend(agreement.render_body());
        }
        book
    }

    pub fn is_empty(&self) -> bool {
        self.agreements.is_empty()
    }
}

impl AgreementModel {
    fn body_length(&self) -> usize {
        book_body::WIDTH + book_period::WIDTH * self.periods.len()
    }

    fn render_body(&self) -> Vec<u8> {
        let mut body = self.lease.clone();
        body.extend((self.periods.len() as u16).to_be_bytes());
        for period in &self.periods {
            body.extend(&period.plate_and_nation);
            body.extend(&period.start);
            body.extend(&period.end);
        }
        body
    }
}

impl PeriodModel {
    pub fn new(plate_and_nation: &[u8], start_seconds: u64, end_seconds: u64) -> PeriodModel {
        PeriodModel {
            plate_and_nation: plate_and_nation.to_vec(),
            start: written(start_seconds),
            end: written(end_seconds),
            start_seconds,
            end_seconds,
        }
    }

    /// A period of given moments, whose numbers are not needed.
    pub fn of_texts(plate_and_nation: &[u8], start: &[u8], end: &[u8]) -> PeriodModel {
        PeriodModel {
            plate_and_nation: plate_and_nation.to_vec(),
            start: start.to_vec(),
            end: end.to_vec(),
            start_seconds: 0,
            end_seconds: 0,
        }
    }
}

/// A sound book: so many agreements of up to so many periods, over a few plates.
pub fn sound_book(rng: &mut Rng, agreements: usize, most_periods: usize) -> BookModel {
    let plates: Vec<Vec<u8>> = (0..4).map(|_| filled_plate(rng)).collect();
    let agreements = rising_pans(rng, agreements)
        .into_iter()
        .map(|pan| {
            let periods = match rng.below(3) {
                0 => most_periods,
                _ => 1 + rng.below(most_periods),
            };
            agreement(rng, pan, &plates, periods)
        })
        .collect();
    BookModel { agreements }
}

/// So many different PANs in rising order, some of them beginnings of others.
pub fn rising_pans(rng: &mut Rng, count: usize) -> Vec<Vec<u8>> {
    let mut pans: Vec<Vec<u8>> = Vec::new();
    while pans.len() < count {
        let missing = count - pans.len();
        for _ in 0..missing {
            let longer = pans.last().cloned().unwrap_or_else(|| pan(rng));
            pans.push(if rng.once_in(4) {
                shortened(rng, longer)
            } else {
                pan(rng)
            });
        }
        pans.sort();
        pans.dedup();
    }
    pans
}

fn shortened(rng: &mut Rng, mut pan: Vec<u8>) -> Vec<u8> {
    pan.truncate(1 + rng.below(18));
    pan.resize(19, b' ');
    pan
}

/// An agreement of so many periods, each at or after the end before it.
pub fn agreement(
    rng: &mut Rng,
    pan: Vec<u8>,
    plates: &[Vec<u8>],
    periods: usize,
) -> AgreementModel {
    let mut at = rng.between(0, SPAN / 3);
    let longest = SPAN / 2 / periods as u64;
    let mut made: Vec<PeriodModel> = (0..periods)
        .map(|_| {
            if rng.once_in(2) {
                at += rng.between(1, HOUR);
            }
            let end = at + rng.between(1, longest);
            let plate: &Vec<u8> = rng.pick(plates);
            let period = PeriodModel::new(plate, at, end);
            at = end;
            period
        })
        .collect();
    if rng.once_in(3) {
        let last = made.last_mut().expect("one period or more");
        last.end = NO_END.to_vec();
        last.end_seconds = SPAN + SPAN / 2;
    }
    AgreementModel {
        pan,
        lease: rng.bytes(12),
        periods: made,
    }
}
