//! Questions for the reader of TICs: good TICs and damaged ones.

use super::clock::any_moment;
use super::damage_tic::TIC_DAMAGES;
use super::limits::{at_limit, Limit};
use super::passage::ACTOR_CHARACTERS;
use super::rng::Rng;
use super::room::lend_enough;
use super::world::{file_name, World};
use crate::acceptance::{Acceptance, Side};
use crate::call::judge;
use crate::columns::{body, name, tic_line};
use crate::lines::{MOST_LINES, TIC};
use crate::numbers::{Count, Gross};
use crate::tic::{Listed, Tic};

const TICS: u64 = 2;

/// A TIC with a listed line to be shown and a room to be written into.
#[derive(Clone, Debug, PartialEq, Eq)]
pub struct TicQuestion {
    pub tic: Vec<u8>,
    /// Which listed line is asked for, counted from 1.
    pub k: usize,
    pub output_length: usize,
}

/// The question of a seed.
pub fn tic_question(seed: u64) -> TicQuestion {
    let mut rng = Rng::new(seed, TICS);
    let tic = if seed % 4_000 == 1_203 {
        largest_tic(&mut rng, seed % 8_000 < 4_000)
    } else {
        small_tic(&mut rng)
    };
    let listed = tic.len().saturating_sub(TIC.length(0)) / TIC.line;
    let k = match rng.below(8) {
        0 => 0,
        1 => listed + 1,
        2 => *rng.pick(&[listed + 2, 10_000, u32::MAX as usize]),
        3 => listed,
        _ => 1 + rng.below(listed + 1),
    };
    let output_length = match rng.below(6) {
        0 => tic.len().saturating_sub(1),
        1 => rng.below(tic.len() + 1),
        2 => tic.len() + 100,
        _ => tic.len(),
    };
    TicQuestion {
        tic,
        k,
        output_length,
    }
}

/// A sound TIC, or one damaged; at times with a later fault beneath the first.
fn small_tic(rng: &mut Rng) -> Vec<u8> {
    let mut tic = sound_tic(rng);
    if rng.percent(45) {
        return tic;
    }
    let first = rng.pick(TIC_DAMAGES);
    let beneath = rng.pick(TIC_DAMAGES);
    if beneath.gives > first.gives && rng.once_in(3) {
        (beneath.apply)(rng, &mut tic);
    }
    (first.apply)(rng, &mut tic);
    tic
}

/// A TIC that reads: the answer to a sound call, or one of free values.
pub fn sound_tic(rng: &mut Rng) -> Vec<u8> {
    if rng.once_in(2) {
        return free_tic(rng);
    }
    let mut call = World::small(rng).call(rng);
    lend_enough(rng, &mut call);
    judge(&call).expect("a sound call with room").tic
}

/// A TIC of values that no call need have given.
fn free_tic(rng: &mut Rng) -> Vec<u8> {
    let acceptance = *rng.pick(&[
        Acceptance::Full,
        Acceptance::Partial,
        Acceptance::Partial,
        Acceptance::AlreadyReceived,
        Acceptance::CountsDiffer,
        Acceptance::TotalDiffers,
        Acceptance::Miscellaneous,
    ]);
    let listed = match acceptance {
        Acceptance::Partial => 1 + rng.below(3),
        _ => 0,
    };
    tic_of(rng, acceptance, listed)
}

/// A TIC of this acceptance with so many listed lines, the rest of it free.
pub fn tic_of(rng: &mut Rng, acceptance: Acceptance, listed: usize) -> Vec<u8> {
    let tif_name = file_name(rng);
    let reception = any_moment(rng);
    let lines: Vec<Vec<u8>> = (0..listed).map(|_| free_line(rng)).collect();
    let codes: Vec<Vec<u8>> = (0..listed).map(|_| rng.text(ACTOR_CHARACTERS, 2)).collect();
    let accepted = accepted_count(rng, acceptance, listed);
    let tic = Tic {
        tif_sequence: name::FILE_SEQUENCE.of(&tif_name),
        tif_receiver: name::RECEIVER.of(&tif_name),
        reception: &reception,
        acceptance,
        side: any_side(rng, acceptance),
        accepted: Count(accepted),
        accepted_sum: accepted_sum(rng, accepted),
        listed: lines
            .iter()
            .zip(&codes)
            .map(|(line, code)| Listed { line, code })
            .collect(),
    };
    tic.render()
}

fn accepted_count(rng: &mut Rng, acceptance: Acceptance, listed: usize) -> u64 {
    if !acceptance.is_line_by_line() {
        return 0;
    }
    let most = (MOST_LINES - listed) as u64;
    *rng.pick(&[0, 1, 12, most]).min(&most)
}

/// Any fifteen digits where a line is accepted, else zero.
fn accepted_sum(rng: &mut Rng, accepted: u64) -> Gross {
    if accepted == 0 {
        return Gross(0);
    }
    let any = rng.between(0, 999_999_999_999_999);
    Gross(*rng.pick(&[0, 5_300, 999_999_999_999_999, any]))
}

fn any_side(rng: &mut Rng, acceptance: Acceptance) -> Option<Side> {
    let either = *rng.pick(&[Side::Credit, Side::Debit]);
    let neither = !acceptance.is_line_by_line() && rng.once_in(3);
    (!neither).then_some(either)
}

/// A listed line that is no more than it must be: "1", no line feed, amount digits.
fn free_line(rng: &mut Rng) -> Vec<u8> {
    let mut line = rng.bytes(tic_line::LISTED.width());
    for byte in &mut line {
        if *byte == b'\n' {
            *byte = b' ';
        }
    }
    line[0] = b'1';
    body::AMOUNT_WITH_VAT.put(&mut line, &rng.digits(11));
    line
}

/// 9,999 listed lines, or one more than any rendering has.
fn largest_tic(rng: &mut Rng, too_many: bool) -> Vec<u8> {
    let mut call = at_limit(rng, Limit::RefusedLines(MOST_LINES)).call;
    lend_enough(rng, &mut call);
    let mut tic = judge(&call).expect("a sound call with room").tic;
    if too_many {
        let first = TIC.place_of_line(1);
        let again = tic[first..first + TIC.line].to_vec();
        tic.splice(first..first, again);
    }
    tic
}
