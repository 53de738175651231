//! What is lent to be written, before and after a call.

use quindaf::lent::{Read, Words, Written, MOST_LINES};
use reference::acceptance::Side;
use reference::call::{judge, Answer, Call};

/// Everything a call may write, with its answer.
#[derive(Clone, Debug, PartialEq, Eq)]
pub struct State {
    pub answer: u32,
    pub marks: Vec<u8>,
    pub words: Box<Words>,
    pub out: Vec<u8>,
    pub summary: [u64; 9],
}

impl State {
    /// Before the call: the call's marks, the rest filled by a pattern of the salt.
    pub fn before(call: &Call, salt: u8) -> State {
        let words: Vec<u64> = (0..MOST_LINES as u64).map(|at| filler(salt, at)).collect();
        let out = (0..call.output_length as u64).map(|at| filler(salt, at) as u8);
        State {
            answer: u32::MAX,
            marks: call.marks.clone(),
            words: words.try_into().expect("as many words as lines"),
            out: out.collect(),
            summary: std::array::from_fn(|at| filler(salt, at as u64)),
        }
    }

    /// After the call, as the reference has it.
    pub fn expected(mut self, call: &Call) -> State {
        match judge(call) {
            Err(fault) => self.answer = fault.number() as u32,
            Ok(answer) => self.write(&answer),
        }
        self
    }

    fn write(&mut self, answer: &Answer) {
        self.answer = 0;
        self.out[..answer.tic.len()].copy_from_slice(&answer.tic);
        self.words[..answer.records.len()].copy_from_slice(&answer.words());
        self.marks.clone_from(&answer.marks);
        self.summary = summary_of(answer);
    }

    /// After the call, as another judge left it.
    pub fn left_by(mut self, judge: impl Fn(Read, Written) -> u32, call: &Call) -> State {
        let written = Written {
            marks: &mut self.marks,
            words: &mut self.words,
            out: &mut self.out,
            summary: &mut self.summary,
        };
        self.answer = judge(lent(call), written);
        self
    }

    /// The first difference, in words.
    pub fn difference(&self, found: &State) -> Option<String> {
        different("answer", &self.answer, &found.answer)
            .or_else(|| different_lists("summary", &self.summary, &found.summary))
            .or_else(|| different_lists("marks", &self.marks, &found.marks))
            .or_else(|| different_lists("words", &*self.words, &*found.words))
            .or_else(|| different_lists("output", &self.out, &found.out))
    }
}

/// A pattern without two equal neighbours, in its low byte too.
pub fn filler(salt: u8, at: u64) -> u64 {
    (at + u64::from(salt)).wrapping_mul(0x9E37_79B9_7F4A_7C15) ^ 0xA5
}

/// What a call reads, but for its station table.
pub fn lent(call: &Call) -> Read<'_> {
    Read {
        name: &call.name,
        received: &call.reception,
        card: &call.card,
        names: &call.received_names,
        book: &call.book,
        debits: &call.debits,
        tif: &call.tif,
        room: call.records_lent,
    }
}

/// The nine numbers of the header file.
fn summary_of(answer: &Answer) -> [u64; 9] {
    let summary = &answer.summary;
    [
        summary.acceptance.number(),
        side_number(summary.side),
        summary.lines.0,
        summary.accepted.0,
        summary.refused.0,
        summary.total.0,
        summary.accepted_amount.0,
        summary.refused_amount.0,
        answer.tic.len() as u64,
    ]
}

/// 0 neither, 1 CRE, 2 DEB.
pub fn side_number(side: Option<Side>) -> u64 {
    match side {
        None => 0,
        Some(Side::Credit) => 1,
        Some(Side::Debit) => 2,
    }
}

/// What differs, if the two do.
pub fn different<T: PartialEq + std::fmt::Debug>(
    what: &str,
    expected: &T,
    found: &T,
) -> Option<String> {
    (expected != found).then(|| format!("{what}: expected {expected:?}, found {found:?}"))
}

/// The first place where two lists of one length differ.
pub fn different_lists<T: PartialEq + std::fmt::Debug>(
    what: &str,
    expected: &[T],
    found: &[T],
) -> Option<String> {
    if expected == found {
        return None;
    }
    let place = expected
        .iter()
        .zip(found)
        .position(|(one, other)| one != other)?;
    different(&format!("{what}[{place}]"), &expected[place], &found[place])
}
