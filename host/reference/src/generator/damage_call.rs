//! Damages to the name, the reception moment, the card and the received names.

use super::clock::unreal_moment;
use super::damage::{replace_one, Damage, Draft, Gives, NOT_DIGITS, NOT_DIGIT_OR_CAPITAL};
use super::rng::Rng;
use crate::call::card_width;

const fn damage(
    number: usize,
    what: &'static str,
    apply: fn(&mut Rng, &mut Draft) -> bool,
) -> Damage {
    Damage {
        what,
        gives: Gives::Refusal(number),
        apply,
    }
}

pub const CALL_DAMAGES: &[Damage] = &[
    damage(1, "name of another length", |rng, draft| {
        let length = *rng.pick(&[0, 1, 34, 36, 70]);
        draft.call.name.resize(length, b'1');
        true
    }),
    damage(1, "name not beginning TIF", |rng, draft| {
        let kind = rng.pick(&[b"TIC", b"tif", b"TIG", b"HGV"]);
        draft.call.name[..3].copy_from_slice(*kind);
        true
    }),
    damage(1, "name with a sender out of form", |rng, draft| {
        replace_one(rng, &mut draft.call.name[3..9], NOT_DIGIT_OR_CAPITAL);
        true
    }),
    damage(1, "name with an unreal date", |rng, draft| {
        let dates: [&[u8; 8]; 9] = [
            b"00000101",
            b"20261301",
            b"20260001",
            b"20260100",
            b"20230229",
            b"21000229",
            b"20260431",
            b"2026061A",
            b"2026 615",
        ];
        draft.call.name[9..17].copy_from_slice(*rng.pick(&dates));
        true
    }),
    damage(1, "name with sequence 0000", |_, draft| {
        draft.call.name[17..21].copy_from_slice(b"0000");
        true
    }),
    damage(1, "name with a sequence not digits", |rng, draft| {
        replace_one(rng, &mut draft.call.name[17..21], NOT_DIGITS);
        true
    }),
    damage(1, "name with a bar missing", |rng, draft| {
        let place = *rng.pick(&[21, 28]);
        draft.call.name[place] = *rng.pick(b"- 0");
        true
    }),
    damage(1, "name with a receiver out of form", |rng, draft| {
        replace_one(rng, &mut draft.call.name[22..28], NOT_DIGIT_OR_CAPITAL);
        true
    }),
    damage(1, "name of another version", |rng, draft| {
        replace_one(rng, &mut draft.call.name[29..], b"29A ");
        true
    }),
    damage(2, "reception moment of another length", |rng, draft| {
        let length = *rng.pick(&[0, 8, 13, 15, 28]);
        draft.call.reception.resize(length, b'0');
        true
    }),
    damage(2, "reception moment unreal", |rng, draft| {
        draft.call.reception = unreal_moment(rng);
        true
    }),
    damage(2, "reception moment with a byte not digit", |rng, draft| {
        replace_one(rng, &mut draft.call.reception, NOT_DIGITS);
        true
    }),
    damage(3, "card of another length", |rng, draft| {
        // As long as it would be right without the table, or with one.
        let other = card_width(draft.call.tst.is_empty());
        let length = *rng.pick(&[0, 8, 14, 15, 17, other]);
        draft.call.card.resize(length, b'0');
        true
    }),
    damage(3, "card with a character out of form", |rng, draft| {
        replace_one(rng, &mut draft.call.card, NOT_DIGIT_OR_CAPITAL);
        true
    }),
    damage(4, "received names with bytes too many", |rng, draft| {
        let extra = 1 + rng.below(34);
        draft.call.received_names.extend(rng.bytes(extra));
        true
    }),
    damage(4, "received names with a byte too few", |_, draft| {
        draft.call.received_names.pop().is_some()
    }),
];
