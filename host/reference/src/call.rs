//! The call: E1 to E8, or the acceptance with TIC, records and marks.

use crate::acceptance::{side_text, Acceptance, Side};
use crate::book::Book;
use crate::columns::{body, tic_line};
use crate::debits::Debits;
use crate::moment::is_real_moment;
use crate::name::{are_received_names, FileName};
use crate::numbers::{Count, Gross, Net};
use crate::text::all_digits_or_capitals;
use crate::tic::{Listed, Tic};
use crate::tif::{accept, side_of, SoundTif};
use crate::tst::Stations;
use crate::verdict::{refusals_in_use, Judging, Refusal, Verdict};

/// Everything that is lent to a call (01, "What is lent"; 02, K1).
#[derive(Clone, Debug, Default, PartialEq, Eq)]
pub struct Call {
    pub name: Vec<u8>,
    pub reception: Vec<u8>,
    pub card: Vec<u8>,
    pub received_names: Vec<u8>,
    pub book: Vec<u8>,
    pub debits: Vec<u8>,
    pub marks: Vec<u8>,
    pub tif: Vec<u8>,
    /// The station table; no bytes at all where none is lent.
    pub tst: Vec<u8>,
    pub records_lent: usize,
    pub output_length: usize,
}

/// Why a call is refused; the number is the paper's. Nothing lent is changed.
#[derive(Clone, Copy, Debug, PartialEq, Eq)]
pub enum CallFault {
    Name = 1,
    Reception = 2,
    Card = 3,
    ReceivedNames = 4,
    Book = 5,
    Debits = 6,
    Room = 7,
    Stations = 8,
}

impl CallFault {
    pub fn number(self) -> usize {
        self as usize
    }
}

/// The record of a line (01, "The record of a line").
#[derive(Clone, Copy, Debug, PartialEq, Eq)]
pub struct Record {
    pub number: usize,
    pub amount: Gross,
    pub verdict: Verdict,
    pub fee: Net,
}

/// The values that the program prints.
#[derive(Clone, Copy, Debug, PartialEq, Eq)]
pub struct Summary {
    pub acceptance: Acceptance,
    pub side: Option<Side>,
    pub lines: Count,
    pub accepted: Count,
    pub refused: Count,
    pub total: Gross,
    pub accepted_amount: Gross,
    pub refused_amount: Gross,
}

/// What an answered call gives and leaves behind. Output past the TIC and
/// records past these are unchanged.
#[derive(Clone, Debug, PartialEq, Eq)]
pub struct Answer {
    pub summary: Summary,
    pub tic: Vec<u8>,
    pub records: Vec<Record>,
    pub marks: Vec<u8>,
}

impl Answer {
    /// One number a line.
    pub fn words(&self) -> Vec<u64> {
        let verdicts = self.records.iter().map(|record| record.verdict);
        verdicts.map(Verdict::word).collect()
    }
}

impl Summary {
    /// The printed line, without its line feed.
    pub fn printed(&self) -> String {
        format!(
            "{} {} {} {} {} {} {} {}",
            self.acceptance.code(),
            side_text(self.side),
            self.lines.0,
            self.accepted.0,
            self.refused.0,
            self.total.0,
            self.accepted_amount.0,
            self.refused_amount.0,
        )
    }
}

/// What is lent, read and found sound.
struct SoundCall<'a> {
    name: FileName<'a>,
    book: Book<'a>,
    debits: Debits<'a>,
    /// None where no table is lent.
    stations: Option<Stations<'a>>,
}

/// The answer to a call, or the first call number that applies.
pub fn judge(call: &Call) -> Result<Answer, CallFault> {
    let sound = read_call(call)?;
    let marks = sound.debits.marks().to_vec();
    let answer = match accept(sound.name, &call.received_names, &call.tif) {
        Ok(tif) => judge_lines(call, sound, &tif),
        Err(acceptance) => refuse_file(call, sound.name, acceptance, marks),
    };
    if answer.tic.len() > call.output_length || answer.records.len() > call.records_lent {
        return Err(CallFault::Room);
    }
    Ok(answer)
}

/// E1 to E6 and then E8, in this order.
fn read_call(call: &Call) -> Result<SoundCall<'_>, CallFault> {
    let name = FileName::read(&call.name).ok_or(CallFault::Name)?;
    if !is_real_moment(&call.reception) {
        return Err(CallFault::Reception);
    }
    if !is_card(&call.card, lends_table(call)) {
        return Err(CallFault::Card);
    }
    if !are_received_names(&call.received_names) {
        return Err(CallFault::ReceivedNames);
    }
    let book = Book::read(&call.book).ok_or(CallFault::Book)?;
    let debits = Debits::read(&call.debits, &call.marks).ok_or(CallFault::Debits)?;
    let stations = read_stations(call)?;
    Ok(SoundCall {
        name,
        book,
        debits,
        stations,
    })
}

/// A table of no bytes is none (02, K1); one of any other length is lent.
fn lends_table(call: &Call) -> bool {
    !call.tst.is_empty()
}

fn read_stations(call: &Call) -> Result<Option<Stations<'_>>, CallFault> {
    if !lends_table(call) {
        return Ok(None);
    }
    let stations = Stations::read(&call.tst).ok_or(CallFault::Stations)?;
    Ok(Some(stations))
}

/// A code for each refusal in use, of the width in 004 (3.2).
pub fn card_width(with_table: bool) -> usize {
    refusals_in_use(with_table) * tic_line::CODE.width()
}

fn is_card(card: &[u8], with_table: bool) -> bool {
    card.len() == card_width(with_table) && all_digits_or_capitals(card)
}

fn code_of(card: &[u8], refusal: Refusal) -> &[u8] {
    let mut codes = card.chunks_exact(tic_line::CODE.width());
    codes
        .nth(refusal.number() - 1)
        .expect("a code for each refusal")
}

/// 02 to 05: no body lines, all counts and sums zero, marks unchanged.
fn refuse_file(call: &Call, name: FileName, acceptance: Acceptance, marks: Vec<u8>) -> Answer {
    let summary = Summary {
        acceptance,
        side: side_of(&call.tif),
        lines: Count(0),
        accepted: Count(0),
        refused: Count(0),
        total: Gross(0),
        accepted_amount: Gross(0),
        refused_amount: Gross(0),
    };
    Answer {
        tic: write_tic(call, name, &summary, Vec::new()),
        summary,
        records: Vec::new(),
        marks,
    }
}

/// 00 or 01: every line judged in file order.
fn judge_lines(call: &Call, sound: SoundCall, tif: &SoundTif) -> Answer {
    let name = sound.name;
    let stations = sound.stations.as_ref();
    let mut judging = Judging::new(tif.side, name.sender(), stations, &sound.book, sound.debits);
    let records: Vec<Record> = (1..)
        .zip(&tif.lines)
        .map(|(number, line)| record(number, line, judging.judge(line)))
        .collect();
    let summary = summarise(tif, &records);
    let listed = list_refused(&call.card, &tif.lines, &records);
    Answer {
        tic: write_tic(call, name, &summary, listed),
        summary,
        records,
        marks: judging.marks().to_vec(),
    }
}

/// A fee without VAT that is not digits counts as zero.
fn record(number: usize, line: &[u8], verdict: Verdict) -> Record {
    Record {
        number,
        amount: Gross::read(body::AMOUNT_WITH_VAT.of(line)).expect("acceptance saw digits"),
        verdict,
        fee: Net::read(body::FEE_WITHOUT_VAT.of(line)).unwrap_or_default(),
    }
}

fn summarise(tif: &SoundTif, records: &[Record]) -> Summary {
    let (accepted, refused): (Vec<Record>, Vec<Record>) = records
        .iter()
        .partition(|record| record.verdict.is_acceptance());
    let amount = |records: &[Record]| records.iter().map(|record| record.amount).sum();
    Summary {
        acceptance: if refused.is_empty() {
            Acceptance::Full
        } else {
            Acceptance::Partial
        },
        side: Some(tif.side),
        lines: Count::of(records.len()),
        accepted: Count::of(accepted.len()),
        refused: Count::of(refused.len()),
        total: tif.total,
        accepted_amount: amount(&accepted),
        refused_amount: amount(&refused),
    }
}

fn list_refused<'a>(card: &'a [u8], lines: &[&'a [u8]], records: &[Record]) -> Vec<Listed<'a>> {
    let with_refusal = |(line, record): (&&'a [u8], &Record)| {
        let refusal = record.verdict.refusal()?;
        Some(Listed::new(line, code_of(card, refusal)))
    };
    lines.iter().zip(records).filter_map(with_refusal).collect()
}

fn write_tic(call: &Call, name: FileName, summary: &Summary, listed: Vec<Listed>) -> Vec<u8> {
    let tic = Tic {
        tif_sequence: name.file_sequence(),
        tif_receiver: name.receiver(),
        reception: &call.reception,
        acceptance: summary.acceptance,
        side: summary.side,
        accepted: summary.accepted,
        accepted_sum: summary.accepted_amount,
        listed,
    };
    tic.render()
}
