//! The agreement book: its form (E5) and what covers a passage (L7).

use crate::columns::{book_body, book_entry, book_period, Columns};
use crate::moment::is_real_moment;
use crate::plate::lawful_in_book;
use crate::text::{all_blanks, big_endian, filled_then_blanks, is_digit};

pub const MOST_AGREEMENTS: usize = 1_000;
pub const MOST_PERIODS: usize = 64;
pub const MOST_BYTES: usize = 1_048_576;
/// The end of a last period that has none.
pub const NO_END: &[u8] = b"99999999999999";

const COUNT: Columns = Columns::new(1, 2);

/// A book of the form of the paper. Lease references are not kept.
#[derive(Clone, Debug, PartialEq, Eq)]
pub struct Book<'a> {
    pub agreements: Vec<Agreement<'a>>,
}

#[derive(Clone, Debug, PartialEq, Eq)]
pub struct Agreement<'a> {
    pub pan: &'a [u8],
    pub periods: Vec<Period<'a>>,
}

#[derive(Clone, Debug, PartialEq, Eq)]
pub struct Period<'a> {
    pub plate: &'a [u8],
    pub nation: &'a [u8],
    pub start: &'a [u8],
    pub end: &'a [u8],
}

/// A covering place: agreement and period, both counted from 1.
#[derive(Clone, Copy, Debug, PartialEq, Eq)]
pub struct Place {
    pub agreement: usize,
    pub period: usize,
}

/// Bytes taken one after another from the front.
struct Cursor<'a> {
    bytes: &'a [u8],
    at: usize,
}

impl<'a> Cursor<'a> {
    fn take(&mut self, width: usize) -> Option<&'a [u8]> {
        let part = self.bytes.get(self.at..self.at + width)?;
        self.at += width;
        Some(part)
    }
}

impl<'a> Book<'a> {
    /// The book, or nothing where it is not of the form (E5).
    pub fn read(bytes: &'a [u8]) -> Option<Book<'a>> {
        if bytes.len() > MOST_BYTES {
            return None;
        }
        let mut cursor = Cursor { bytes, at: 0 };
        let count = big_endian(cursor.take(COUNT.width())?) as usize;
        if count > MOST_AGREEMENTS {
            return None;
        }
        let entries = read_entries(&mut cursor, count)?;
        let agreements = entries
            .into_iter()
            .map(|entry| read_agreement(&mut cursor, entry))
            .collect::<Option<Vec<_>>>()?;
        (cursor.at == bytes.len()).then_some(Book { agreements })
    }

    /// The first period in book order that covers the passage (L7).
    pub fn cover(&self, pan: &[u8], moment: &[u8], plate: &[u8], nation: &[u8]) -> Option<Place> {
        let blank_pan = all_blanks(pan);
        self.first_place(|agreement, period| {
            let named = if blank_pan {
                period.plate == plate && period.nation == nation
            } else {
                agreement.pan == pan
            };
            named && period.start <= moment && moment < period.end
        })
    }

    fn first_place(&self, covers: impl Fn(&Agreement, &Period) -> bool) -> Option<Place> {
        self.agreements
            .iter()
            .enumerate()
            .find_map(|(index, agreement)| {
                let covers_it = |period: &Period| covers(agreement, period);
                let period = agreement.periods.iter().position(covers_it)?;
                Some(Place {
                    agreement: index + 1,
                    period: period + 1,
                })
            })
    }
}

/// The entries, each PAN in form and above the one before it by bytes.
fn read_entries<'a>(cursor: &mut Cursor<'a>, count: usize) -> Option<Vec<&'a [u8]>> {
    let entries = (0..count)
        .map(|_| cursor.take(book_entry::WIDTH))
        .collect::<Option<Vec<_>>>()?;
    let pan = |entry: &'a [u8]| book_entry::PAN.of(entry);
    let in_form = entries
        .iter()
        .all(|entry| filled_then_blanks(pan(entry), is_digit));
    let rising = entries.windows(2).all(|pair| pan(pair[0]) < pan(pair[1]));
    (in_form && rising).then_some(entries)
}

/// The agreement whose body stands where its entry says, which is right here.
fn read_agreement<'a>(cursor: &mut Cursor<'a>, entry: &'a [u8]) -> Option<Agreement<'a>> {
    if big_endian(book_entry::OFFSET.of(entry)) != cursor.at as u64 {
        return None;
    }
    let body = cursor.take(book_body::WIDTH)?;
    let count = big_endian(book_body::PERIODS.of(body)) as usize;
    if !(1..=MOST_PERIODS).contains(&count) {
        return None;
    }
    let periods = (0..count)
        .map(|_| cursor.take(book_period::WIDTH).map(cut_period))
        .collect::<Option<Vec<_>>>()?;
    periods_are_sound(&periods).then_some(Agreement {
        pan: book_entry::PAN.of(entry),
        periods,
    })
}

fn cut_period(bytes: &[u8]) -> Period<'_> {
    Period {
        plate: book_period::PLATE.of(bytes),
        nation: book_period::NATION.of(bytes),
        start: book_period::START.of(bytes),
        end: book_period::END.of(bytes),
    }
}

/// Each period in form, "no end" in the last only, each after the one before.
fn periods_are_sound(periods: &[Period]) -> bool {
    let last = periods.len() - 1;
    let in_form = periods.iter().enumerate().all(|(index, period)| {
        lawful_in_book(period.plate, period.nation)
            && is_real_moment(period.start)
            && (is_real_moment(period.end) || (index == last && period.end == NO_END))
            && period.start < period.end
    });
    in_form && periods.windows(2).all(|pair| pair[0].end <= pair[1].start)
}
