//! Damages to the open debits and their marks.

use super::damage::{replace_one, Damage, Draft, Gives, NOT_DIGITS};
use super::rng::Rng;
use crate::columns::body;

const fn damage(what: &'static str, apply: fn(&mut Rng, &mut Draft) -> bool) -> Damage {
    Damage {
        what,
        gives: Gives::Refusal(6),
        apply,
    }
}

/// Spoils one debit of the list, if there is one.
fn spoil_one(rng: &mut Rng, draft: &mut Draft, spoil: fn(&mut Rng, &mut [u8])) -> bool {
    let count = draft.call.debits.len() / body::WIDTH;
    if count == 0 {
        return false;
    }
    let chosen = rng.below(count);
    let mut lines = draft.call.debits.chunks_exact_mut(body::WIDTH);
    spoil(rng, lines.nth(chosen).expect("a chosen debit"));
    true
}

pub const DEBITS_DAMAGES: &[Damage] = &[
    damage("debits not whole lines: cut", |rng, draft| {
        let cut = 1 + rng.below(body::WIDTH - 1);
        let left = draft.call.debits.len().saturating_sub(cut);
        draft.call.debits.truncate(left);
        left > 0
    }),
    damage("debits not whole lines: bytes added", |rng, draft| {
        let extra = 1 + rng.below(body::WIDTH - 1);
        draft.call.debits.extend(rng.bytes(extra));
        true
    }),
    damage("a debit not beginning 1", |rng, draft| {
        spoil_one(rng, draft, |rng, line| line[0] = *rng.pick(b"02\x01 "))
    }),
    damage("a debit not ending in line feed", |rng, draft| {
        spoil_one(rng, draft, |rng, line| {
            line[body::WIDTH - 1] = *rng.pick(b"\r0 ");
        })
    }),
    damage("a debit of a type not C or D", |rng, draft| {
        spoil_one(rng, draft, |rng, line| line[1] = *rng.pick(b"RcdBE 1"))
    }),
    damage("a debit with an amount not digits", |rng, draft| {
        spoil_one(rng, draft, |rng, line| {
            let amount = body::AMOUNT_WITH_VAT;
            replace_one(rng, &mut line[amount.offset()..amount.last], NOT_DIGITS);
        })
    }),
    damage("a mark too few", |_, draft| {
        draft.call.marks.pop().is_some()
    }),
    damage("a mark too many", |rng, draft| {
        draft.call.marks.push(rng.below(2) as u8);
        true
    }),
    damage("a mark not 0 or 1", |rng, draft| {
        let count = draft.call.marks.len();
        if count > 0 {
            draft.call.marks[rng.below(count)] = *rng.pick(b"01\x02\xFF");
        }
        count > 0
    }),
];
