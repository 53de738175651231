//! Open debits and their marks: their form (E6), and which debit a credit takes (L8).

use crate::columns::body;
use crate::lines::MOST_LINES;
use crate::text::{all_digits, LINE_FEED};

pub const UNMARKED: u8 = 0;
pub const MARKED: u8 = 1;

/// Open debits of the form of the paper, with the marks as they stand.
#[derive(Clone, Debug, PartialEq, Eq)]
pub struct Debits<'a> {
    lines: Vec<&'a [u8]>,
    marks: Vec<u8>,
}

impl<'a> Debits<'a> {
    /// The debits with their marks, or nothing where they are out of form (E6).
    pub fn read(debits: &'a [u8], marks: &[u8]) -> Option<Debits<'a>> {
        let lines = debits.chunks_exact(body::WIDTH);
        if !lines.remainder().is_empty() || lines.len() > MOST_LINES {
            return None;
        }
        let lines: Vec<&[u8]> = lines.collect();
        let sound = lines.iter().all(|line| is_open_debit(line))
            && marks.len() == lines.len()
            && marks.iter().all(|mark| [UNMARKED, MARKED].contains(mark));
        sound.then_some(Debits {
            lines,
            marks: marks.to_vec(),
        })
    }

    pub fn marks(&self) -> &[u8] {
        &self.marks
    }

    /// The credit takes the first agreeing unmarked debit, whose mark becomes 1;
    /// its number, counted from 1, or nothing (L8).
    pub fn take(&mut self, credit: &[u8]) -> Option<usize> {
        let is_free = |(line, &mark): (&&[u8], &u8)| mark == UNMARKED && agree(line, credit);
        let place = self.lines.iter().zip(&self.marks).position(is_free)?;
        self.marks[place] = MARKED;
        Some(place + 1)
    }
}

/// Columns 1, 2, 137-147 and 810 are all that E6 looks at in a line.
fn is_open_debit(line: &[u8]) -> bool {
    body::REGISTER.of(line) == b"1"
        && [b'C', b'D'].contains(&body::TYPE.of(line)[0])
        && all_digits(body::AMOUNT_WITH_VAT.of(line))
        && body::LINE_FEED.of(line) == [LINE_FEED]
}

/// Debit and credit agree on the columns that L8 names.
pub fn agree(debit: &[u8], credit: &[u8]) -> bool {
    body::AGREEING
        .iter()
        .all(|columns| columns.of(debit) == columns.of(credit))
}
