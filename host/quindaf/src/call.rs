//! The call: a TIF judged, with its TIC, its records and the marks.

use crate::answers::{CallFault, Gross, Net, Summary};
use crate::lent::{self, Read, Words, Written, MOST_LINES};
use crate::parts::{Book, CodeCard, FileName, Moment, OpenDebits, StationTable, LINE_WIDTH};
use crate::tic::tic_length;
use crate::verdict::Verdict;

/// Header and footer of a TIF.
const TIF_HEADER: usize = 162;
const TIF_ENDS: usize = TIF_HEADER + 107;

/// Everything that is lent to a call, but for the open debits and the output.
#[derive(Clone, Debug, PartialEq, Eq)]
pub struct Call {
    /// The file name of the TIF.
    pub name: FileName,
    /// The reception moment.
    pub received: Moment,
    /// The refusal codes that the TIC shows for L1 to L8, or to L9 with stations.
    pub card: CodeCard,
    /// The names of files received before.
    pub names: Vec<FileName>,
    /// The agreement book.
    pub book: Book,
    /// The TIF.
    pub tif: Vec<u8>,
    /// The station table, or none.
    pub stations: StationTable,
}

/// The record of a line.
#[derive(Clone, Copy, Debug, PartialEq, Eq)]
pub struct Record {
    /// The line, counted from 1.
    pub number: usize,
    /// Its amount with VAT.
    pub amount: Gross,
    /// Its verdict.
    pub verdict: Verdict,
    /// Its fee without VAT, zero where that is not digits.
    pub fee: Net,
}

/// The answer to a call. The debits that were taken are marked in the call's
/// [`OpenDebits`].
#[derive(Clone, Debug, PartialEq, Eq)]
pub struct Judged {
    /// Acceptance, side, counts and amounts.
    pub summary: Summary,
    /// One record a line; none with 02 to 05.
    pub records: Vec<Record>,
    /// The TIC.
    pub tic: Vec<u8>,
}

/// The answer to a call with a lent output.
#[derive(Debug, PartialEq, Eq)]
pub struct JudgedInto<'o> {
    /// Acceptance, side, counts and amounts.
    pub summary: Summary,
    /// One record a line; none with 02 to 05.
    pub records: Vec<Record>,
    /// The TIC, at the front of the output.
    pub tic: &'o mut [u8],
    /// The rest of the output, which the call left unchanged.
    pub rest: &'o mut [u8],
}

impl Call {
    /// Judges the TIF, or gives E1 to E6 or E8 with no mark changed. Output and
    /// records are made large enough for any answer, so that E7 never comes.
    pub fn judge(&self, debits: &mut OpenDebits) -> Result<Judged, CallFault> {
        let mut tic = vec![0; tic_length(self.most_lines())];
        let judged = self.judge_into(debits, MOST_LINES, &mut tic)?;
        let (summary, records, length) = (judged.summary, judged.records, judged.tic.len());
        tic.truncate(length);
        Ok(Judged {
            summary,
            records,
            tic,
        })
    }

    /// Judges the TIF for a caller who keeps at most `room` records, and writes the
    /// TIC into a lent output. Too short an output or too few records give E7, with
    /// no mark and no byte changed.
    pub fn judge_into<'o>(
        &self,
        debits: &mut OpenDebits,
        room: usize,
        out: &'o mut [u8],
    ) -> Result<JudgedInto<'o>, CallFault> {
        let mut words = no_words();
        let mut summary = [0; 9];
        let names: Vec<u8> = self.names.iter().flat_map(|name| name.0).collect();
        let (lines, marks) = debits.lend();
        let read = Read {
            name: &self.name.0,
            received: &self.received.0,
            card: &self.card.0,
            names: &names,
            book: &self.book.0,
            debits: lines,
            tif: &self.tif,
            room,
        };
        let written = Written {
            marks,
            words: &mut words,
            out: &mut *out,
            summary: &mut summary,
        };
        CallFault::check(lent::judge_with(read, &self.stations.0, written))?;
        let (tic, rest) = out.split_at_mut(summary[8] as usize);
        let summary = Summary::of_numbers(&summary);
        Ok(JudgedInto {
            summary,
            records: records(&self.tif, &words[..summary.lines]),
            tic,
            rest,
        })
    }

    /// No fewer lines than any answer to this TIF has.
    fn most_lines(&self) -> usize {
        let lines = self.tif.len().saturating_sub(TIF_ENDS) / LINE_WIDTH;
        lines.min(MOST_LINES)
    }
}

/// Words on the heap, before a call.
fn no_words() -> Box<Words> {
    let words = vec![0; MOST_LINES].into_boxed_slice();
    words.try_into().expect("as many words as lines")
}

/// The records of a judged file: the words, with amount and fee of the lines.
fn records(tif: &[u8], words: &[u64]) -> Vec<Record> {
    let lines = tif[TIF_HEADER.min(tif.len())..].chunks_exact(LINE_WIDTH);
    (1..)
        .zip(lines.zip(words))
        .map(|(number, (line, &word))| Record {
            number,
            amount: Gross(digits(&line[136..147]).expect("a judged line has an amount")),
            verdict: Verdict::of_word(word).expect("a judged line has a verdict"),
            fee: Net(digits(&line[114..125]).unwrap_or(0)),
        })
        .collect()
}

/// The value of a field of eleven digits, or nothing where a byte is no digit.
fn digits(field: &[u8]) -> Option<u64> {
    field.iter().try_fold(0, |value: u64, byte| {
        let digit = byte.is_ascii_digit().then(|| u64::from(byte - b'0'))?;
        Some(value * 10 + digit)
    })
}
