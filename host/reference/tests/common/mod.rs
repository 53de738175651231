//! Short questions to the reference, for the tests.

#![allow(dead_code)]

use reference::acceptance::Side;
use reference::call::{judge, Answer, Call};
use reference::columns::Columns;
use reference::example::{call, line, passage, Passage};
use reference::verdict::Verdict;

/// The call number, or 0 for an answered call.
pub fn call_number(call: &Call) -> usize {
    judge(call).map_or_else(|fault| fault.number(), |_| 0)
}

pub fn answer(call: &Call) -> Answer {
    judge(call).expect("an answered call")
}

/// The acceptance of an answered call.
pub fn acceptance(call: &Call) -> u64 {
    answer(call).summary.acceptance.number()
}

/// The verdicts' numbers, 0 for an accepted line.
pub fn verdict_numbers(call: &Call) -> Vec<usize> {
    let number = |verdict: Verdict| verdict.refusal().map_or(0, |refusal| refusal.number());
    let records = answer(call).records;
    records
        .iter()
        .map(|record| number(record.verdict))
        .collect()
}

/// The verdict of the only line of a DEB file.
pub fn debit_verdict(line: Vec<u8>) -> usize {
    verdict_numbers(&call(Side::Debit, &[line]))[0]
}

/// A DEB line of the example's passage, changed.
pub fn debit_with(columns: Columns, text: &[u8]) -> Vec<u8> {
    with(line(b"C1", &passage()), columns, text)
}

/// The line with other columns.
pub fn with(mut line: Vec<u8>, columns: Columns, text: &[u8]) -> Vec<u8> {
    columns.put(&mut line, text);
    line
}

/// A CRE call: open debits with marks, and credits.
pub fn credit_call(debits: &[Vec<u8>], marks: &[u8], credits: &[Vec<u8>]) -> Call {
    Call {
        debits: debits.concat(),
        marks: marks.to_vec(),
        ..call(Side::Credit, credits)
    }
}

pub fn debit() -> Vec<u8> {
    line(b"C1", &passage())
}

pub fn credit() -> Vec<u8> {
    line(b"R2", &passage())
}

/// The example's passage at another moment.
pub fn at(moment: &[u8]) -> Passage {
    Passage {
        moment: moment.to_vec(),
        ..passage()
    }
}
