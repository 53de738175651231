//! Damages to a TIC, each with the T number it gives.

use super::clock::unreal_moment;
use super::damage::{replace_one, NOT_DIGITS, NOT_DIGIT_OR_CAPITAL};
use super::passage::actor;
use super::rng::Rng;
use crate::columns::{body, tic_footer as footer, tic_header as header, tic_line, Columns};
use crate::lines::TIC;
use crate::text::{digits_value, padded};

/// One way to spoil a TIC; it answers whether there was something to spoil.
#[derive(Clone, Copy)]
pub struct TicDamage {
    pub what: &'static str,
    /// The T number, 1 to 5.
    pub gives: usize,
    pub apply: fn(&mut Rng, &mut Vec<u8>) -> bool,
}

const fn damage(
    gives: usize,
    what: &'static str,
    apply: fn(&mut Rng, &mut Vec<u8>) -> bool,
) -> TicDamage {
    TicDamage { what, gives, apply }
}

fn listed(tic: &[u8]) -> usize {
    TIC.lines_in(tic.len()).expect("a length that reads")
}

/// The place of a header, line or footer, with its width.
fn any_part(rng: &mut Rng, tic: &[u8]) -> std::ops::Range<usize> {
    let footer_place = tic.len() - footer::WIDTH;
    match rng.below(3) {
        0 => 0..header::WIDTH,
        1 if listed(tic) > 0 => any_line(rng, tic).expect("a listed line"),
        _ => footer_place..tic.len(),
    }
}

fn any_line(rng: &mut Rng, tic: &[u8]) -> Option<std::ops::Range<usize>> {
    let count = listed(tic);
    (count > 0).then(|| {
        let start = TIC.place_of_line(1 + rng.below(count));
        start..start + tic_line::WIDTH
    })
}

fn footer_of(tic: &mut [u8]) -> &mut [u8] {
    let start = tic.len() - footer::WIDTH;
    &mut tic[start..]
}

fn value(part: &[u8], columns: Columns) -> u64 {
    digits_value(columns.of(part)).expect("a field of digits")
}

fn put_value(part: &mut [u8], columns: Columns, number: u64) {
    let text = padded(number, columns.width());
    columns.put(part, &text);
}

/// Replaces one byte of some columns of a part.
fn break_columns(rng: &mut Rng, part: &mut [u8], columns: Columns, strangers: &[u8]) -> bool {
    replace_one(rng, &mut part[columns.offset()..columns.last], strangers);
    true
}

/// Breaks some columns of a listed line, if there is one.
fn break_line(rng: &mut Rng, tic: &mut [u8], columns: Columns, strangers: &[u8]) -> bool {
    let place = any_line(rng, tic);
    place.is_some_and(|place| break_columns(rng, &mut tic[place], columns, strangers))
}

/// Puts the same text into the sequence of the TIC and of the TIF it names.
fn in_both_names(tic: &mut [u8], offset: usize, text: &[u8]) -> bool {
    for columns in [header::FILE_SEQUENCE, header::FILE_RECEIVED] {
        let place = columns.offset() + offset;
        tic[place..place + text.len()].copy_from_slice(text);
    }
    true
}

/// Accepted and rejected, each in both its columns.
fn put_counts(tic: &mut [u8], accepted: u64, rejected: u64) {
    put_value(tic, header::ACCEPTED, accepted);
    put_value(tic, header::ACCEPTED_TRANSACTIONS, accepted);
    put_value(tic, header::REJECTED, rejected);
    put_value(tic, header::REJECTED_TRANSACTIONS, rejected);
}

const COUNTS: [Columns; 4] = [
    header::ACCEPTED,
    header::REJECTED,
    header::ACCEPTED_TRANSACTIONS,
    header::REJECTED_TRANSACTIONS,
];

pub const TIC_DAMAGES: &[TicDamage] = &[
    damage(1, "TIC cut short", |rng, tic| {
        let length = tic.len();
        tic.truncate(*rng.pick(&[0, 1, 196, 323, length - 1, length - 128]));
        true
    }),
    damage(1, "TIC with bytes after its end", |rng, tic| {
        let extra = *rng.pick(&[1, 128, 811]);
        tic.extend(vec![b'\n'; extra]);
        true
    }),
    damage(1, "TIC with a byte put in", |rng, tic| {
        let at = rng.below(tic.len());
        tic.insert(at, *rng.pick(b"0 \r\n"));
        true
    }),
    damage(1, "TIC line feed missing", |rng, tic| {
        let part = any_part(rng, tic);
        tic[part.end - 1] = *rng.pick(b"0 \r");
        true
    }),
    damage(1, "TIC line feed elsewhere", |rng, tic| {
        let part = any_part(rng, tic);
        tic[part.start + rng.below(part.len() - 1)] = b'\n';
        true
    }),
    damage(1, "TIC line feed one place early", |rng, tic| {
        let part = any_part(rng, tic);
        tic.swap(part.end - 1, part.end - 2);
        true
    }),
    damage(2, "TIC header not beginning 0", |rng, tic| {
        break_columns(rng, tic, header::REGISTER, b"12 \x00")
    }),
    damage(2, "TIC sender out of form", |rng, tic| {
        break_columns(rng, tic, header::SENDER, NOT_DIGIT_OR_CAPITAL)
    }),
    damage(2, "TIC receiver not the TIF's sender", |_, tic| {
        let place = header::RECEIVER.offset();
        tic[place] = if tic[place] == b'7' { b'8' } else { b'7' };
        true
    }),
    damage(2, "TIC sequence not beginning TIC", |rng, tic| {
        tic[13..16].copy_from_slice(*rng.pick(&[b"TIF", b"tic", b"TI "]));
        true
    }),
    damage(2, "TIF sequence not beginning TIF", |rng, tic| {
        tic[34..37].copy_from_slice(*rng.pick(&[b"TIC", b"tif", b"TI "]));
        true
    }),
    damage(2, "TIC and TIF sequences differ", |rng, tic| {
        let place = *rng.pick(&[header::FILE_SEQUENCE, header::FILE_RECEIVED]);
        let at = place.offset() + 3 + rng.below(18);
        tic[at] = if tic[at] == b'1' { b'2' } else { b'1' };
        true
    }),
    damage(
        2,
        "TIC names another TIF throughout but once",
        |rng, tic| {
            let other = actor(rng);
            let same = header::RECEIVER.of(tic) == other;
            in_both_names(tic, 3, &other);
            !same
        },
    ),
    damage(2, "TIC with an unreal date in both names", |rng, tic| {
        let dates: [&[u8; 8]; 4] = [b"20230229", b"00000101", b"20261301", b"2026 615"];
        in_both_names(tic, 9, *rng.pick(&dates))
    }),
    damage(2, "TIC with sequence 0000 in both names", |_, tic| {
        in_both_names(tic, 17, b"0000")
    }),
    damage(2, "TIC sequence not digits in both names", |rng, tic| {
        in_both_names(tic, 17, *rng.pick(&[b"00 1", b"A001", b"  12"]))
    }),
    damage(2, "TIF sender out of form throughout", |_, tic| {
        header::RECEIVER.put(tic, b"10012a");
        in_both_names(tic, 3, b"10012a")
    }),
    damage(2, "TIC reception moment not real", |rng, tic| {
        header::RECEPTION.put(tic, &unreal_moment(rng));
        true
    }),
    damage(2, "TIC currency not NOK", |rng, tic| {
        break_columns(rng, tic, header::CURRENCY, b"no ")
    }),
    damage(2, "TIC count not digits", |rng, tic| {
        let columns = *rng.pick(&COUNTS);
        break_columns(rng, tic, columns, NOT_DIGITS)
    }),
    damage(2, "TIC side not CRE, DEB or 000", |rng, tic| {
        let sides = [b"deb", b"   ", b"001", b"CRD", b"00\x00"];
        header::SIDE.put(tic, *rng.pick(&sides));
        true
    }),
    damage(2, "TIC version not 130001", |rng, tic| {
        break_columns(rng, tic, header::VERSION, b"29 A")
    }),
    damage(2, "TIC number not blank", |rng, tic| {
        break_columns(rng, tic, header::TIC_NUMBER, b"01\x00\xA0")
    }),
    damage(2, "TIC filler not zeros", |rng, tic| {
        break_columns(rng, tic, header::FILLER, b"1 \x00O")
    }),
    damage(2, "TIC acceptance not digits", |rng, tic| {
        break_columns(rng, tic, header::ACCEPTANCE, NOT_DIGITS)
    }),
    damage(3, "TIC records and transactions differ", |rng, tic| {
        let columns = *rng.pick(&COUNTS);
        let number = value(tic, columns);
        put_value(tic, columns, *rng.pick(&[number + 1, number + 65_536]));
        true
    }),
    damage(3, "TIC rejected count not the lines listed", |rng, tic| {
        let (accepted, rejected) = (value(tic, header::ACCEPTED), value(tic, header::REJECTED));
        let fewer = if rejected > 0 { rejected - 1 } else { 9 };
        let wrong = *rng.pick(&[rejected + 1, fewer, rejected + (1 << 32)]);
        put_counts(tic, accepted, wrong);
        true
    }),
    damage(3, "TIC with a listed line taken out", |rng, tic| {
        any_line(rng, tic)
            .map(|place| tic.drain(place).count())
            .is_some()
    }),
    damage(3, "TIC with a listed line twice", |rng, tic| {
        let place = any_line(rng, tic);
        place.is_some_and(|place| {
            let again = tic[place.clone()].to_vec();
            tic.splice(place.start..place.start, again);
            true
        })
    }),
    damage(3, "TIC of more than 9,999 lines in all", |rng, tic| {
        let rejected = value(tic, header::REJECTED);
        let above = *rng.pick(&[10_000, 10_001, 65_536, 999_999_999_999_999]);
        put_counts(tic, above - rejected, rejected);
        true
    }),
    damage(3, "TIC acceptance above 05", |rng, tic| {
        header::ACCEPTANCE.put(tic, *rng.pick(&[b"06", b"10", b"15", b"99", b"50"]));
        true
    }),
    damage(3, "TIC acceptance of the other kind", |rng, tic| {
        let rejected = value(tic, header::REJECTED) > 0;
        let counted = rejected || value(tic, header::ACCEPTED) > 0;
        let other_kind = if rejected { b"00" } else { b"01" };
        let whole = *rng.pick(&[b"02", b"03", b"04", b"05"]);
        let wrong = if counted && rng.once_in(2) {
            whole
        } else {
            other_kind
        };
        header::ACCEPTANCE.put(tic, wrong);
        true
    }),
    damage(3, "TIC judged line by line with 000", |_, tic| {
        let judged = value(tic, header::ACCEPTANCE) < 2;
        header::SIDE.put(tic, b"000");
        judged
    }),
    damage(4, "TIC line not beginning 1", |rng, tic| {
        break_line(rng, tic, tic_line::REGISTER, b"02 \x01")
    }),
    damage(4, "TIC line with an amount not digits", |rng, tic| {
        break_line(rng, tic, body::AMOUNT_WITH_VAT, NOT_DIGITS)
    }),
    damage(4, "TIC line with a code out of form", |rng, tic| {
        break_line(rng, tic, tic_line::CODE, NOT_DIGIT_OR_CAPITAL)
    }),
    damage(5, "TIC footer not beginning 2", |rng, tic| {
        break_columns(rng, footer_of(tic), footer::REGISTER, b"01 \x02")
    }),
    damage(5, "TIC accepted sum not digits", |rng, tic| {
        break_columns(rng, footer_of(tic), footer::ACCEPTED_SUM, NOT_DIGITS)
    }),
    damage(5, "TIC rejected sum not digits", |rng, tic| {
        break_columns(rng, footer_of(tic), footer::REJECTED_SUM, NOT_DIGITS)
    }),
    damage(5, "TIC rejected sum not that of the lines", |rng, tic| {
        let part = footer_of(tic);
        let sum = value(part, footer::REJECTED_SUM);
        let wrong = [
            sum + 1,
            sum + 100,
            (sum + (1 << 32)) % 1_000_000_000_000_000,
        ];
        put_value(part, footer::REJECTED_SUM, *rng.pick(&wrong));
        true
    }),
    damage(5, "TIC accepted sum with no line accepted", |rng, tic| {
        let none = value(tic, header::ACCEPTED) == 0;
        let sum = rng.between(1, 999_999_999_999_999);
        put_value(footer_of(tic), footer::ACCEPTED_SUM, sum);
        none
    }),
    damage(5, "TIC footer filler not zeros", |rng, tic| {
        break_columns(rng, footer_of(tic), footer::FILLER, b"1 \x00O")
    }),
];
