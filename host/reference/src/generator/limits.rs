//! Calls at and just past each limit of size.

use super::book_model::{agreement, rising_pans, BookModel};
use super::passage::{any_passage, filled_plate, line};
use super::rng::Rng;
use super::stations::lend_large_table;
use super::world::{Size, World};
use super::{clock::any_moment, damage::Draft};
use crate::acceptance::Side;
use crate::book::{MOST_AGREEMENTS, MOST_BYTES};
use crate::lines::MOST_LINES;

/// A limit that a call reaches or passes.
#[derive(Clone, Copy, Debug, PartialEq, Eq)]
pub enum Limit {
    Agreements(usize),
    BookBytes(usize),
    Debits(usize),
    DebitLines(usize),
    CreditLines(usize),
    RefusedLines(usize),
    /// A table of so many stations, with a few lines.
    Stations(usize),
    /// As many lines as stations, most lines at one of them.
    LinesAndStations(usize),
}

/// Limits of the book alone, of up to one megabyte.
const BOOK_LIMITS: [Limit; 4] = [
    Limit::Agreements(MOST_AGREEMENTS),
    Limit::Agreements(MOST_AGREEMENTS + 1),
    Limit::BookBytes(MOST_BYTES),
    Limit::BookBytes(MOST_BYTES + 1),
];

/// Limits of lines, of eight megabytes and more.
const LINE_LIMITS: [Limit; 7] = [
    Limit::Debits(MOST_LINES),
    Limit::Debits(MOST_LINES + 1),
    Limit::DebitLines(MOST_LINES),
    Limit::DebitLines(MOST_LINES + 1),
    Limit::CreditLines(MOST_LINES),
    Limit::CreditLines(MOST_LINES + 1),
    Limit::RefusedLines(MOST_LINES),
];

/// Limits of the station table, of two megabytes.
const STATION_LIMITS: [Limit; 2] = [Limit::Stations(MOST_LINES), Limit::Stations(MOST_LINES + 1)];

/// A limit for this seed, rarely; the larger ones more rarely.
pub fn rare_limit(seed: u64) -> Option<Limit> {
    if seed % 250 == 83 {
        return Some(BOOK_LIMITS[(seed / 250 % 4) as usize]);
    }
    if seed % 1_000 == 417 {
        return Some(LINE_LIMITS[(seed / 1_000 % 7) as usize]);
    }
    if seed % 10_000 == 1_751 {
        return Some(STATION_LIMITS[(seed / 10_000 % 2) as usize]);
    }
    None
}

/// A call that is sound but for its size.
pub fn at_limit(rng: &mut Rng, limit: Limit) -> Draft {
    let world = world_at(rng, limit);
    let mut draft = Draft::new(rng, &world);
    if let Limit::Stations(count) | Limit::LinesAndStations(count) = limit {
        lend_large_table(rng, &mut draft.call, &world.lines, count);
    }
    draft
}

fn world_at(rng: &mut Rng, limit: Limit) -> World {
    let mut size = Size {
        agreements: 3,
        periods: 2,
        debits: 3,
        lines: 6,
    };
    let side = match limit {
        Limit::Debits(_) | Limit::CreditLines(_) => Side::Credit,
        _ => Side::Debit,
    };
    match limit {
        Limit::Agreements(count) => size.agreements = count,
        Limit::Debits(count) => size.debits = count,
        Limit::DebitLines(count) | Limit::CreditLines(count) | Limit::LinesAndStations(count) => {
            size.lines = count
        }
        Limit::BookBytes(_) | Limit::RefusedLines(_) | Limit::Stations(_) => {}
    }
    if let Limit::Agreements(_) = limit {
        size.periods = 1;
    }
    let mut world = World::new(rng, size, side);
    if let Limit::BookBytes(bytes) = limit {
        world.book = book_of_bytes(rng, bytes);
    }
    if let Limit::RefusedLines(count) = limit {
        refuse_all(rng, &mut world, count);
    }
    world
}

/// Lines whose amounts are the largest there are, none of them covered.
fn refuse_all(rng: &mut Rng, world: &mut World, count: usize) {
    world.book = BookModel::default();
    let moment = any_moment(rng);
    let mut passage = any_passage(rng, world.sender(), moment);
    passage.amount = 99_999_999_999;
    world.lines = (0..count).map(|_| line(rng, b"C1", &passage)).collect();
}

/// A book of exactly so many bytes: 2 + 37·a + 40·p for a agreements with p
/// periods in all.
pub fn book_of_bytes(rng: &mut Rng, bytes: usize) -> BookModel {
    let fits = |agreements: &usize| {
        let periods = bytes - 2 - 37 * agreements;
        periods % 40 == 0 && periods / 40 <= 62 * agreements
    };
    let agreements = (1..=MOST_AGREEMENTS)
        .find(|count| 2 + 37 * count < bytes && fits(count))
        .expect("agreements that make up the bytes");
    let periods = (bytes - 2 - 37 * agreements) / 40;
    let plates: Vec<Vec<u8>> = (0..50).map(|_| filled_plate(rng)).collect();
    let pans = rising_pans(rng, agreements);
    let made = pans.into_iter().enumerate().map(|(index, pan)| {
        let share = periods * (index + 1) / agreements - periods * index / agreements;
        agreement(rng, pan, &plates, share)
    });
    BookModel {
        agreements: made.collect(),
    }
}
