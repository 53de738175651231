//! One TIC, read, listed and rewritten by the reference and by a subject.

use crate::owned_tic::owned_tic_difference;
use crate::state::{different, different_lists, filler, side_number};
use crate::subject::Subject;
use reference::generator::tics::{tic_question, TicQuestion};
use reference::lines::TIC;
use reference::tic_reader::{listed_place, read, rewrite, RewriteFault};

/// The first difference on the TIC of a seed.
pub fn tic_seed_difference(subject: &Subject, seed: u64) -> Option<(TicQuestion, String)> {
    let question = tic_question(seed);
    let difference = tic_difference(subject, &question)?;
    Some((question, difference))
}

/// The first difference on a TIC: read; listed at the line asked for and at the
/// ends; rewritten into the room lent and into rooms beside the needed one; and
/// all of these through the owned type.
pub fn tic_difference(subject: &Subject, question: &TicQuestion) -> Option<String> {
    let tic = question.tic.as_slice();
    let listed = tic.len().saturating_sub(TIC.length(0)) / TIC.line;
    let lines = [question.k, 0, 1, listed, listed + 1, usize::MAX];
    let length = tic.len();
    let rooms = [
        question.output_length,
        length,
        length.saturating_sub(1),
        length + 100,
        0,
    ];
    reading_difference(subject, tic)
        .or_else(|| {
            lines
                .iter()
                .find_map(|&k| listed_difference(subject, tic, k))
        })
        .or_else(|| {
            rooms
                .iter()
                .find_map(|&room| rewriting_difference(subject, tic, room))
        })
        .or_else(|| owned_tic_difference(question))
}

fn reading_difference(subject: &Subject, tic: &[u8]) -> Option<String> {
    let before: [u64; 7] = std::array::from_fn(|at| filler(1, at as u64));
    let (answer, values) = match read(tic) {
        Err(fault) => (fault.number() as u32, before),
        Ok(read) => {
            let values = [
                read.acceptance.number(),
                side_number(read.side),
                read.accepted.0,
                read.rejected().0,
                read.listed.len() as u64,
                read.accepted_sum.0,
                read.rejected_sum().0,
            ];
            (0, values)
        }
    };
    let mut found = before;
    let told = (subject.read_tic)(tic, &mut found);
    different("reading", &answer, &told).or_else(|| different("values", &values, &found))
}

fn listed_difference(subject: &Subject, tic: &[u8], k: usize) -> Option<String> {
    let before: [u64; 2] = std::array::from_fn(|at| filler(2, at as u64));
    let (answer, place) = match listed_place(tic, k) {
        Err(fault) => (fault.number() as u32, before),
        Ok(place) => (0, [place.line as u64, place.code as u64]),
    };
    let mut found = before;
    let told = (subject.listed)(tic, k, &mut found);
    let what = format!("listed line {k}");
    different(&what, &answer, &told).or_else(|| different(&what, &place, &found))
}

fn rewriting_difference(subject: &Subject, tic: &[u8], room: usize) -> Option<String> {
    let before: Vec<u8> = (0..room as u64).map(|at| filler(3, at) as u8).collect();
    let (mut out, mut length) = (before.clone(), [filler(3, 0)]);
    let answer = match rewrite(tic, room) {
        Err(RewriteFault::Unread(fault)) => fault.number() as u32,
        Err(RewriteFault::OutputTooShort) => 107,
        Ok(text) => {
            out[..text.len()].copy_from_slice(&text);
            length = [text.len() as u64];
            0
        }
    };
    let (mut found, mut told_length) = (before, [filler(3, 0)]);
    let told = (subject.rewrite_tic)(tic, &mut found, &mut told_length);
    let what = format!("rewriting into {room} bytes");
    different(&what, &answer, &told)
        .or_else(|| different(&what, &length, &told_length))
        .or_else(|| different_lists(&what, &out, &found))
}
