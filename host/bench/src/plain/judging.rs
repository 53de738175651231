//! The call: its checks, the lines, and what is written.

use super::book::{Book, Covers};
use super::debits::{are_sound, FreeDebits};
use super::fields::{
    all_digits, all_digits_or_capitals, is_lawful_plate, joined, real_moment, two_digits,
};
use super::file::{accept, is_name, side_number, SoundFile};
use super::stations::Stations;
use super::tic::{tic_length, write_tic, Head};
use quindaf::lent::{Read, Written};
use reference::columns::{body, name};
use std::collections::HashSet;

/// The counts and sums of a judged file.
#[derive(Default)]
struct Sums {
    accepted: u64,
    refused: u64,
    accepted_amount: u64,
    refused_amount: u64,
}

/// What lines are judged against, read and in form.
struct SoundCall<'a> {
    book: Book<'a>,
    /// None where no table is lent.
    stations: Option<Stations>,
}

/// Judges a TIF as the library does with no station table: 0, or the call number.
pub fn judge(read: Read, written: Written) -> u32 {
    judge_with(read, &[], written)
}

/// Judges a TIF as the library does with a station table.
pub fn judge_with(read: Read, tst: &[u8], written: Written) -> u32 {
    match try_judge(read, tst, written) {
        Ok(()) => 0,
        Err(number) => number,
    }
}

fn try_judge(read: Read, tst: &[u8], written: Written) -> Result<(), u32> {
    let sound = check_call(&read, tst, written.marks)?;
    let words = match accept(read.name, read.names, read.tif) {
        Err(acceptance) => return write(&read, written, acceptance, &Sums::default(), &[]),
        Ok(file) => judge_lines(&file, &read, &sound, written.marks),
    };
    let sums = sum_up(read.tif, &words);
    let acceptance = u64::from(sums.refused > 0);
    write(&read, written, acceptance, &sums, &words)
}

/// E1 to E6 and E8; the book and the stations that were read.
fn check_call<'a>(read: &Read<'a>, tst: &[u8], marks: &[u8]) -> Result<SoundCall<'a>, u32> {
    if !is_name(read.name) {
        return Err(1);
    }
    if real_moment(read.received).is_none() {
        return Err(2);
    }
    let card = if tst.is_empty() { 16 } else { 18 };
    if read.card.len() != card || !all_digits_or_capitals(read.card) {
        return Err(3);
    }
    if !read.names.len().is_multiple_of(name::WIDTH) {
        return Err(4);
    }
    let book = Book::read(read.book).ok_or(5u32)?;
    if !are_sound(read.debits, marks) {
        return Err(6);
    }
    let stations = match tst {
        [] => None,
        tst => Some(Stations::read(tst).ok_or(8u32)?),
    };
    Ok(SoundCall { book, stations })
}

/// One word a line.
fn judge_lines(file: &SoundFile, read: &Read, sound: &SoundCall, marks: &[u8]) -> Vec<u64> {
    let tests = LineTests {
        is_debit: file.is_debit,
        sender: name::SENDER.of(read.name),
        stations: sound.stations.as_ref(),
    };
    let lines = file.lines.chunks_exact(body::WIDTH);
    if file.is_debit {
        let covers = Covers::new(&sound.book);
        let mut earlier = HashSet::with_capacity(lines.len());
        let word = |line| debit_word(line, &tests, &covers, &mut earlier);
        lines.map(word).collect()
    } else {
        let mut free = FreeDebits::new(read.debits, marks);
        let word = |line| match tests.fault(line) {
            Err(number) => number,
            Ok(_) => free.take(line).map_or(8, |debit| debit * 256),
        };
        lines.map(word).collect()
    }
}

fn debit_word(
    line: &[u8],
    tests: &LineTests,
    covers: &Covers,
    earlier: &mut HashSet<[u8; 61]>,
) -> u64 {
    let is_new = earlier.insert(joined(&body::REPEATED, line));
    match tests.fault(line) {
        Err(number) => number,
        Ok(_) if !is_new => 6,
        Ok(moment) => {
            let (pan, plate) = (body::PAN.of(line), body::DETECTED.of(line));
            covers.word(pan, plate, moment).unwrap_or(7)
        }
    }
}

/// What a line alone is tested against.
struct LineTests<'a> {
    is_debit: bool,
    sender: &'a [u8],
    stations: Option<&'a Stations>,
}

impl LineTests<'_> {
    /// The exit moment of a line that passes L1 to L3, L9, L4 and L5, or the first
    /// of them.
    fn fault(&self, line: &[u8]) -> Result<u64, u64> {
        let lawful_type = match body::TYPE.of(line) {
            b"C1" | b"D1" | b"C3" | b"D3" | b"C4" | b"C8" | b"D8" => self.is_debit,
            b"R2" => !self.is_debit,
            _ => false,
        };
        if !lawful_type {
            return Err(1);
        }
        let moment = real_moment(body::EXIT_MOMENT.of(line)).ok_or(2u64)?;
        let numbers = [body::STATION_AND_LANE, body::COUNTER, body::FEE_WITHOUT_VAT];
        if !numbers.iter().all(|columns| all_digits(columns.of(line))) {
            return Err(2);
        }
        if body::EXIT_ACTOR.of(line) != self.sender {
            return Err(3);
        }
        if self.stations.is_some_and(|stations| !stations.have(line)) {
            return Err(9);
        }
        if !is_known_vehicle(line) {
            return Err(4);
        }
        if !has_lawful_plates(line) {
            return Err(5);
        }
        Ok(moment)
    }
}

fn has_lawful_plates(line: &[u8]) -> bool {
    let declared = (body::DECLARED_PLATE, body::DECLARED_NATION);
    let detected = (body::DETECTED_PLATE, body::DETECTED_NATION);
    [declared, detected]
        .iter()
        .all(|(plate, nation)| is_lawful_plate(plate.of(line), nation.of(line)))
}

fn is_known_vehicle(line: &[u8]) -> bool {
    let tariff = two_digits(body::TARIFF_CLASS.of(line));
    let emission = two_digits(body::EMISSION.of(line));
    let fuel = body::FUEL.of(line);
    matches!(tariff, Some(1 | 2 | 12 | 22 | 31 | 32 | 41 | 51 | 63 | 71))
        && matches!(emission, Some(0..=7 | 15))
        && matches!(two_digits(fuel), Some(1..=6 | 9..=15 | 20..=22))
        && matches!(fuel[2], b'Y' | b'N')
}

/// The line of a TIF with this index.
fn line_at(tif: &[u8], index: usize) -> &[u8] {
    &tif[162 + body::WIDTH * index..][..body::WIDTH]
}

fn sum_up(tif: &[u8], words: &[u64]) -> Sums {
    let mut sums = Sums::default();
    for (index, word) in words.iter().enumerate() {
        let line = line_at(tif, index);
        let amount = super::fields::number(body::AMOUNT_WITH_VAT.of(line)).unwrap_or(0);
        if word % 256 == 0 {
            sums.accepted += 1;
            sums.accepted_amount += amount;
        } else {
            sums.refused += 1;
            sums.refused_amount += amount;
        }
    }
    sums
}

/// E7, or everything written: TIC, words, marks and summary.
fn write(
    read: &Read,
    written: Written,
    acceptance: u64,
    sums: &Sums,
    words: &[u64],
) -> Result<(), u32> {
    let length = tic_length(sums.refused as usize);
    if written.out.len() < length || read.room < words.len() {
        return Err(7);
    }
    let side = side_number(read.tif);
    list_refused(read, &mut written.out[..length], acceptance, sums, words);
    written.words[..words.len()].copy_from_slice(words);
    if side == 1 {
        let taken = words.iter().filter(|word| *word % 256 == 0);
        taken.for_each(|word| written.marks[(word / 256) as usize - 1] = 1);
    }
    *written.summary = [
        acceptance,
        side,
        words.len() as u64,
        sums.accepted,
        sums.refused,
        sums.accepted_amount + sums.refused_amount,
        sums.accepted_amount,
        sums.refused_amount,
        length as u64,
    ];
    Ok(())
}

/// The TIC with the refused lines and their codes.
fn list_refused(read: &Read, out: &mut [u8], acceptance: u64, sums: &Sums, words: &[u64]) {
    let head = Head {
        name: read.name,
        received: read.received,
        side: side_number(read.tif),
        acceptance,
        accepted: sums.accepted,
        rejected: sums.refused,
        amounts: [sums.accepted_amount, sums.refused_amount],
    };
    let refused = words
        .iter()
        .enumerate()
        .filter(|(_, word)| *word % 256 != 0);
    let listed = refused.map(|(index, &word)| {
        let code = 2 * (word as usize - 1);
        (line_at(read.tif, index), &read.card[code..code + 2])
    });
    write_tic(out, &head, listed);
}
