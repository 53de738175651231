//! The agreement book, with its periods found by PAN and by plate.

use super::fields::{all_are, is_filled_plate, real_moment};
use std::cell::OnceCell;
use std::collections::HashMap;
use std::ops::Range;

const ENTRY: usize = 23;
const BODY: usize = 14;
const PERIOD: usize = 40;
const NO_END: u64 = 99_999_999_999_999;

/// A period, with the numbers of its agreement and of itself from 1.
pub struct Period<'a> {
    agreement: u64,
    number: u64,
    plate: &'a [u8],
    start: u64,
    end: u64,
}

/// Entries in their order and all periods in book order.
pub struct Book<'a> {
    pans: Vec<(&'a [u8], Range<usize>)>,
    periods: Vec<Period<'a>>,
}

fn big_endian(bytes: &[u8]) -> usize {
    bytes
        .iter()
        .fold(0, |value, &byte| value << 8 | usize::from(byte))
}

fn is_pan(pan: &[u8]) -> bool {
    let filled = pan.iter().take_while(|byte| byte.is_ascii_digit()).count();
    filled > 0 && all_are(&pan[filled..], b' ')
}

impl<'a> Book<'a> {
    /// The book, where it is in form (E5).
    pub fn read(bytes: &'a [u8]) -> Option<Book<'a>> {
        let count = big_endian(bytes.get(..2)?);
        if bytes.len() > 1_048_576 || count > 1_000 {
            return None;
        }
        let entries = bytes.get(2..2 + ENTRY * count)?;
        let mut book = Book {
            pans: Vec::with_capacity(count),
            periods: Vec::with_capacity(bytes.len() / PERIOD),
        };
        let mut at = 2 + ENTRY * count;
        for entry in entries.chunks_exact(ENTRY) {
            let (pan, offset) = entry.split_at(19);
            let rising = book.pans.last().is_none_or(|(before, _)| *before < pan);
            if !is_pan(pan) || !rising || big_endian(offset) != at {
                return None;
            }
            at = book.read_agreement(pan, bytes, at)?;
        }
        (at == bytes.len()).then_some(book)
    }

    /// Reads the periods of an agreement; the place after them.
    fn read_agreement(&mut self, pan: &'a [u8], bytes: &'a [u8], at: usize) -> Option<usize> {
        let count = big_endian(bytes.get(at + 12..at + BODY)?);
        if !(1..=64).contains(&count) {
            return None;
        }
        let end = at + BODY + PERIOD * count;
        let (first, agreement) = (self.periods.len(), self.pans.len() as u64 + 1);
        let mut before = 0;
        for (index, text) in bytes.get(at + BODY..end)?.chunks_exact(PERIOD).enumerate() {
            let period = read_period(text, index + 1 == count)?;
            if period.start < before {
                return None;
            }
            before = period.end;
            let number = index as u64 + 1;
            self.periods.push(Period {
                agreement,
                number,
                ..period
            });
        }
        self.pans.push((pan, first..self.periods.len()));
        Some(end)
    }
}

fn read_period(text: &[u8], is_last: bool) -> Option<Period<'_>> {
    let start = real_moment(&text[12..26])?;
    let end = match &text[26..] {
        b"99999999999999" if is_last => NO_END,
        end => real_moment(end)?,
    };
    let sound = is_filled_plate(&text[..10], &text[10..12]) && start < end;
    sound.then_some(Period {
        agreement: 0,
        number: 0,
        plate: &text[..12],
        start,
        end,
    })
}

/// The periods of each PAN, and of each plate with its nation once one is asked
/// for.
pub struct Covers<'b, 'a> {
    book: &'b Book<'a>,
    by_pan: HashMap<&'a [u8], Range<usize>>,
    by_plate: OnceCell<Plates<'a>>,
}

impl<'b, 'a> Covers<'b, 'a> {
    pub fn new(book: &'b Book<'a>) -> Covers<'b, 'a> {
        Covers {
            book,
            by_pan: book.pans.iter().cloned().collect(),
            by_plate: OnceCell::new(),
        }
    }

    /// The word of the first period that covers, if one does.
    pub fn word(&self, pan: &[u8], plate: &[u8], moment: u64) -> Option<u64> {
        let covers = |period: &&Period| period.start <= moment && moment < period.end;
        let periods = &self.book.periods;
        let found = if all_are(pan, b' ') {
            let plates = self.by_plate.get_or_init(|| Plates::new(periods));
            plates.places(plate).map(|at| &periods[at]).find(covers)
        } else {
            periods[self.by_pan.get(pan)?.clone()].iter().find(covers)
        };
        found.map(|period| period.agreement * 256 + period.number * 16_777_216)
    }
}

/// The first period of each plate, and the next of the same plate.
struct Plates<'a> {
    first: HashMap<&'a [u8], usize>,
    next: Vec<Option<usize>>,
}

impl<'a> Plates<'a> {
    fn new(periods: &[Period<'a>]) -> Plates<'a> {
        let mut first = HashMap::with_capacity(periods.len());
        let mut next = vec![None; periods.len()];
        for (index, period) in periods.iter().enumerate().rev() {
            next[index] = first.insert(period.plate, index);
        }
        Plates { first, next }
    }

    /// The periods of a plate in book order.
    fn places(&self, plate: &[u8]) -> impl Iterator<Item = usize> + '_ {
        let first = self.first.get(plate).copied();
        std::iter::successors(first, |&place| self.next[place])
    }
}
