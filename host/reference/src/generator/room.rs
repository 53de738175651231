//! Room lent to a call: enough, exactly enough, or too little (E7).

use super::rng::Rng;
use crate::call::{judge, Call};

/// Room that no answer needs more of.
const PLENTY: usize = 10_000_000;

/// What the call's answer needs: output bytes and records.
#[derive(Clone, Copy, Debug, PartialEq, Eq)]
pub struct Needed {
    pub output: usize,
    pub records: usize,
}

/// What the answer needs, or nothing for a call refused before.
pub fn needed(call: &mut Call) -> Option<Needed> {
    call.output_length = PLENTY;
    call.records_lent = PLENTY;
    let answer = judge(call).ok()?;
    Some(Needed {
        output: answer.tic.len(),
        records: answer.records.len(),
    })
}

/// Lends exactly enough, or somewhat more.
pub fn lend_enough(rng: &mut Rng, call: &mut Call) {
    let needed = needed(call).unwrap_or(Needed {
        output: 324,
        records: 0,
    });
    call.output_length = needed.output + *rng.pick(&[0, 0, 1, 7, 812]);
    call.records_lent = needed.records + *rng.pick(&[0, 0, 1, 5]);
}

/// Lends too little output or too few records; answers whether it could.
pub fn lend_too_little(rng: &mut Rng, call: &mut Call) -> bool {
    let Some(needed) = needed(call) else {
        return false;
    };
    call.output_length = needed.output;
    call.records_lent = needed.records;
    if needed.records > 0 && rng.once_in(2) {
        call.records_lent = *rng.pick(&[needed.records - 1, needed.records - 1, 0]);
    } else {
        let short = [needed.output - 1, needed.output - 1, 323, 196, 0];
        call.output_length = *rng.pick(&short);
    }
    true
}
