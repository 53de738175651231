//! Counts of what generated calls and TICs were answered with.

use super::tics::TicQuestion;
use crate::call::{judge, Call};
use crate::tic_reader::listed_place;

/// How often each answer occurred.
#[derive(Clone, Debug, Default, PartialEq, Eq)]
pub struct Tally {
    /// E1 to E8.
    pub call_numbers: [usize; 8],
    /// 00 to 05.
    pub acceptances: [usize; 6],
    /// L1 to L9.
    pub refusals: [usize; 9],
    /// Lines accepted by a period, and by a debit.
    pub covered: usize,
    pub credited: usize,
    /// T1 to T6.
    pub tic_faults: [usize; 6],
    /// TICs that read, with the line asked for there.
    pub tics_read: usize,
}

impl Tally {
    pub fn count_call(&mut self, call: &Call) {
        let answer = match judge(call) {
            Err(fault) => {
                self.call_numbers[fault.number() - 1] += 1;
                return;
            }
            Ok(answer) => answer,
        };
        self.acceptances[answer.summary.acceptance.number() as usize] += 1;
        for record in &answer.records {
            self.count_verdict(record.verdict);
        }
    }

    fn count_verdict(&mut self, verdict: crate::verdict::Verdict) {
        use crate::verdict::Verdict;
        match verdict {
            Verdict::Covered(_) => self.covered += 1,
            Verdict::Credited { .. } => self.credited += 1,
            Verdict::Refused(refusal) => self.refusals[refusal.number() - 1] += 1,
        }
    }

    pub fn count_tic(&mut self, question: &TicQuestion) {
        match listed_place(&question.tic, question.k) {
            Err(fault) => self.tic_faults[fault.number() - 1] += 1,
            Ok(_) => self.tics_read += 1,
        }
    }

    /// Every count by its name, in the paper's order.
    pub fn rows(&self) -> Vec<(String, usize)> {
        let numbered = |letter: &str, first: usize, counts: &[usize]| -> Vec<(String, usize)> {
            let named = counts.iter().enumerate();
            named
                .map(|(index, &count)| (format!("{letter}{}", first + index), count))
                .collect()
        };
        let mut rows = numbered("E", 1, &self.call_numbers);
        rows.extend(numbered("0", 0, &self.acceptances));
        rows.extend(numbered("L", 1, &self.refusals));
        rows.push(("covered".to_string(), self.covered));
        rows.push(("credited".to_string(), self.credited));
        rows.extend(numbered("T", 1, &self.tic_faults));
        rows.push(("listed line shown".to_string(), self.tics_read));
        rows
    }
}
