//! Reading a TIC back: T1 to T6, and writing what was read (01, "The TIC").

use crate::acceptance::{Acceptance, Side};
use crate::columns::{name, tic_footer as footer, tic_header as header, tic_line};
use crate::lines::{MOST_LINES, TIC};
use crate::moment::is_real_moment;
use crate::name::{is_file_sequence, VERSION};
use crate::numbers::{Count, Gross};
use crate::text::{all_blanks, all_digits_or_capitals, all_zeros, digits_value};
use crate::tic::{Listed, Tic};

/// Why a TIC does not read, or a listed line is not there; the number is the paper's.
#[derive(Clone, Copy, Debug, PartialEq, Eq)]
pub enum TicFault {
    LengthOrLineFeeds = 1,
    Header = 2,
    Counts = 3,
    ListedLine = 4,
    Footer = 5,
    NoSuchLine = 6,
}

impl TicFault {
    pub fn number(self) -> usize {
        self as usize
    }
}

/// Why writing what was read fails.
#[derive(Clone, Copy, Debug, PartialEq, Eq)]
pub enum RewriteFault {
    Unread(TicFault),
    /// E7.
    OutputTooShort,
}

/// Where a listed line and its code begin in the TIC, counted from 0.
#[derive(Clone, Copy, Debug, PartialEq, Eq)]
pub struct ListedPlace {
    pub line: usize,
    pub code: usize,
}

/// The header's values where each column is in form.
struct HeaderValues<'a> {
    tif_sequence: &'a [u8],
    tif_receiver: &'a [u8],
    reception: &'a [u8],
    side: Option<Side>,
    accepted: Count,
    rejected: Count,
    accepted_transactions: Count,
    rejected_transactions: Count,
    acceptance: u64,
}

/// The values of a TIC, or the first of T1 to T5 that applies.
pub fn read(tic: &[u8]) -> Result<Tic<'_>, TicFault> {
    let parts = TIC.cut(tic).ok_or(TicFault::LengthOrLineFeeds)?;
    let values = read_header(parts.header).ok_or(TicFault::Header)?;
    let acceptance = check_counts(&values, parts.lines.len()).ok_or(TicFault::Counts)?;
    let listed = read_listed(&parts.lines).ok_or(TicFault::ListedLine)?;
    let mut tic = Tic {
        tif_sequence: values.tif_sequence,
        tif_receiver: values.tif_receiver,
        reception: values.reception,
        acceptance,
        side: values.side,
        accepted: values.accepted,
        accepted_sum: Gross(0),
        listed,
    };
    tic.accepted_sum = read_footer(parts.footer, &tic).ok_or(TicFault::Footer)?;
    Ok(tic)
}

/// Listed line k, counted from 1, and its code, as places of the TIC.
pub fn listed_place(tic: &[u8], k: usize) -> Result<ListedPlace, TicFault> {
    let listed = read(tic)?.listed.len();
    if !(1..=listed).contains(&k) {
        return Err(TicFault::NoSuchLine);
    }
    let line = TIC.place_of_line(k);
    Ok(ListedPlace {
        line,
        code: line + tic_line::CODE.offset(),
    })
}

/// Writes what was read, into an output of the given length.
pub fn rewrite(tic: &[u8], output_length: usize) -> Result<Vec<u8>, RewriteFault> {
    let text = read(tic).map_err(RewriteFault::Unread)?.render();
    if text.len() > output_length {
        return Err(RewriteFault::OutputTooShort);
    }
    Ok(text)
}

/// The header's values, or nothing where a column is out of form (T2).
fn read_header(text: &[u8]) -> Option<HeaderValues<'_>> {
    if !fixed_columns_are_right(text) || !names_one_tif(text) {
        return None;
    }
    Some(HeaderValues {
        tif_sequence: header::FILE_RECEIVED.of(text),
        tif_receiver: header::SENDER.of(text),
        reception: header::RECEPTION.of(text),
        side: read_side(header::SIDE.of(text))?,
        accepted: Count::read(header::ACCEPTED.of(text))?,
        rejected: Count::read(header::REJECTED.of(text))?,
        accepted_transactions: Count::read(header::ACCEPTED_TRANSACTIONS.of(text))?,
        rejected_transactions: Count::read(header::REJECTED_TRANSACTIONS.of(text))?,
        acceptance: digits_value(header::ACCEPTANCE.of(text))?,
    })
}

fn fixed_columns_are_right(text: &[u8]) -> bool {
    header::REGISTER.of(text) == b"0"
        && is_real_moment(header::RECEPTION.of(text))
        && header::CURRENCY.of(text) == b"NOK"
        && header::VERSION.of(text) == VERSION
        && all_blanks(header::TIC_NUMBER.of(text))
        && all_zeros(header::FILLER.of(text))
}

/// Receiver, TIC sequence and TIF sequence all name one TIF of a lawful name.
fn names_one_tif(text: &[u8]) -> bool {
    let received = header::FILE_RECEIVED.of(text);
    let own = header::FILE_SEQUENCE.of(text);
    all_digits_or_capitals(header::SENDER.of(text))
        && is_file_sequence(received)
        && header::RECEIVER.of(text) == name::SENDER.of(received)
        && name::KIND.of(own) == b"TIC"
        && name::AFTER_KIND.of(own) == name::AFTER_KIND.of(received)
}

/// CRE, DEB or "000"; anything else is no side at all.
fn read_side(text: &[u8]) -> Option<Option<Side>> {
    match text {
        b"000" => Some(None),
        other => Side::read(other).map(Some),
    }
}

/// The acceptance, where the counts agree with each other, the lines and it (T3).
fn check_counts(values: &HeaderValues, listed: usize) -> Option<Acceptance> {
    let acceptance = Acceptance::from_number(values.acceptance)?;
    let repeated = values.accepted == values.accepted_transactions
        && values.rejected == values.rejected_transactions;
    let fits = values.rejected == Count::of(listed)
        && values.accepted.0 + values.rejected.0 <= MOST_LINES as u64;
    let lawful = match acceptance {
        Acceptance::Full => values.rejected == Count(0) && values.side.is_some(),
        Acceptance::Partial => values.rejected != Count(0) && values.side.is_some(),
        _ => values.accepted == Count(0) && values.rejected == Count(0),
    };
    (repeated && fits && lawful).then_some(acceptance)
}

/// The listed lines, each beginning "1", with amount digits and card characters (T4).
fn read_listed<'a>(lines: &[&'a [u8]]) -> Option<Vec<Listed<'a>>> {
    lines.iter().map(|line| read_listed_line(line)).collect()
}

fn read_listed_line(line: &[u8]) -> Option<Listed<'_>> {
    let listed = Listed {
        line: tic_line::LISTED.of(line),
        code: tic_line::CODE.of(line),
    };
    let sound = tic_line::REGISTER.of(line) == b"1"
        && listed.amount().is_some()
        && all_digits_or_capitals(listed.code);
    sound.then_some(listed)
}

/// The accepted sum, where the footer is in form and agrees with the lines (T5).
fn read_footer(text: &[u8], tic: &Tic) -> Option<Gross> {
    let accepted_sum = Gross::read(footer::ACCEPTED_SUM.of(text))?;
    let rejected_sum = Gross::read(footer::REJECTED_SUM.of(text))?;
    let sound = footer::REGISTER.of(text) == b"2"
        && rejected_sum == tic.rejected_sum()
        && (tic.accepted != Count(0) || accepted_sum == Gross(0))
        && all_zeros(footer::FILLER.of(text));
    sound.then_some(accepted_sum)
}
