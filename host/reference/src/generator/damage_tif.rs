//! Damages to the TIF, one for each cause of 05, then 03 and 04; and 02.

use super::clock::unreal_moment;
use super::damage::{replace_one, Damage, Draft, Gives};
use super::file_draft::{FileDraft, Part};
use super::passage::actor;
use super::rng::Rng;
use crate::columns::{body, tif_footer, tif_header as header, Columns};
use crate::lines::TIF;
use crate::text::{digits_value, padded};

const fn damage(
    acceptance: u64,
    what: &'static str,
    apply: fn(&mut Rng, &mut Draft) -> bool,
) -> Damage {
    Damage {
        what,
        gives: Gives::Acceptance(acceptance),
        apply,
    }
}

/// The TIF of a draft.
fn tif(draft: &mut Draft) -> FileDraft<'_> {
    FileDraft {
        bytes: &mut draft.call.tif,
        layout: TIF,
    }
}

/// Changes some columns of the header.
fn change_header(
    rng: &mut Rng,
    draft: &mut Draft,
    columns: Columns,
    change: impl Fn(&mut Rng, &mut [u8]),
) -> bool {
    tif(draft).change(rng, Part::Header, columns, change)
}

/// Adds to the header's records.
fn add_to_records(draft: &mut Draft, by: i64) {
    tif(draft).add_to(header::RECORDS.offset(), by);
}

/// Adds to the footer's total.
fn add_to_total(draft: &mut Draft, by: i64) {
    let mut tif = tif(draft);
    let total = tif.footer_place() + tif_footer::TOTAL.offset();
    tif.add_to(total, by);
}

pub const TIF_DAMAGES: &[Damage] = &[
    damage(2, "name received before", |rng, draft| {
        let slots = draft.call.received_names.len() / 35;
        let at = 35 * rng.below(slots + 1);
        let name = draft.call.name.clone();
        draft.call.received_names.splice(at..at, name);
        true
    }),
    damage(2, "name received before, file cut as well", |rng, draft| {
        let name = draft.call.name.clone();
        draft.call.received_names.extend(name);
        let left = rng.below(draft.call.tif.len());
        draft.call.tif.truncate(left);
        true
    }),
    damage(5, "file cut short", |rng, draft| {
        let length = draft.call.tif.len();
        let left = *rng.pick(&[0, 1, 73, 75, 76, 162, 268, length - 1, length - 107]);
        draft.call.tif.truncate(left);
        true
    }),
    damage(5, "file with bytes after its end", |rng, draft| {
        let extra = *rng.pick(&[1, 107, 809]);
        draft.call.tif.extend(vec![b'\n'; extra]);
        true
    }),
    damage(5, "file with a byte put in", |rng, draft| {
        tif(draft).put_byte_in(rng)
    }),
    damage(5, "file with a byte taken out", |rng, draft| {
        tif(draft).take_byte_out(rng)
    }),
    damage(5, "line feed missing", |rng, draft| {
        tif(draft).lose_line_feed(rng)
    }),
    damage(5, "line feed elsewhere", |rng, draft| {
        tif(draft).put_line_feed_elsewhere(rng)
    }),
    damage(5, "line feed one place early", |rng, draft| {
        tif(draft).move_line_feed(rng)
    }),
    damage(5, "column 1 wrong", |rng, draft| {
        tif(draft).spoil_register(rng)
    }),
    damage(5, "sender unlike the name", |rng, draft| {
        change_header(rng, draft, header::SENDER, other_actor)
    }),
    damage(5, "receiver unlike the name", |rng, draft| {
        change_header(rng, draft, header::RECEIVER, other_actor)
    }),
    damage(5, "sequence unlike the name", |rng, draft| {
        change_header(rng, draft, header::FILE_SEQUENCE, |rng, field| {
            let place = rng.below(field.len());
            field[place] = if field[place] == b'7' { b'8' } else { b'7' };
        })
    }),
    damage(5, "currency not NOK", |rng, draft| {
        change_header(rng, draft, header::CURRENCY, |rng, field| {
            field.copy_from_slice(*rng.pick(&[b"SEK", b"EUR", b"nok", b"NO ", b"000"]));
        })
    }),
    damage(5, "neither CRE nor DEB", |rng, draft| {
        change_header(rng, draft, header::SIDE, |rng, field| {
            field.copy_from_slice(*rng.pick(&[b"000", b"deb", b"CRD", b"DEC", b"   ", b"CR\x00"]));
        })
    }),
    damage(5, "version not 130001", |rng, draft| {
        change_header(rng, draft, header::VERSION, |rng, field| {
            replace_one(rng, field, b"29 A");
        })
    }),
    damage(5, "creation moment not real", |rng, draft| {
        change_header(rng, draft, header::CREATION, |rng, field| {
            field.copy_from_slice(&unreal_moment(rng));
        })
    }),
    damage(5, "records not digits", |rng, draft| {
        tif(draft).break_digits(rng, Part::Header, header::RECORDS)
    }),
    damage(5, "transactions not digits", |rng, draft| {
        tif(draft).break_digits(rng, Part::Header, header::TRANSACTIONS)
    }),
    damage(5, "total not digits", |rng, draft| {
        tif(draft).break_digits(rng, Part::Footer, tif_footer::TOTAL)
    }),
    damage(5, "amount with VAT not digits", |rng, draft| {
        tif(draft).break_digits(rng, Part::Line, body::AMOUNT_WITH_VAT)
    }),
    damage(5, "header filler not zeros", |rng, draft| {
        change_header(rng, draft, header::FILLER, |rng, field| {
            replace_one(rng, field, b"1 \x00O");
        })
    }),
    damage(5, "footer filler not zeros", |rng, draft| {
        tif(draft).change(rng, Part::Footer, tif_footer::FILLER, |rng, field| {
            replace_one(rng, field, b"1 \x00O");
        })
    }),
    damage(5, "filler, counts and total all wrong", |_, draft| {
        let footer = draft.call.tif.len() - tif_footer::WIDTH;
        draft.call.tif[footer + tif_footer::FILLER.offset()] = b' ';
        add_to_records(draft, 1);
        add_to_total(draft, 1);
        true
    }),
    damage(3, "records differ", |rng, draft| {
        let by = *rng.pick(&[1, -1, 10_000, 65_536, 1 << 32, 100_000_000_000_000]);
        add_to_records(draft, by);
        true
    }),
    damage(3, "transactions neither zero nor all", |rng, draft| {
        let lines = TIF.lines_in(draft.call.tif.len()).expect("a sound file") as u64;
        let wrong = *rng.pick(&[lines + 1, lines + 2, 2 * lines + 1, lines + 65_536, 1 << 40]);
        let text = padded(wrong, header::TRANSACTIONS.width());
        header::TRANSACTIONS.put(&mut draft.call.tif, &text);
        true
    }),
    damage(3, "counts and total both differ", |rng, draft| {
        add_to_records(draft, 1);
        add_to_total(draft, rng.between(1, 99) as i64);
        true
    }),
    damage(4, "total differs", |rng, draft| {
        let by = *rng.pick(&[1, -1, 100, 1 << 32, -(1 << 32), 900_000_000_000_000]);
        add_to_total(draft, by);
        true
    }),
    damage(4, "an amount differs", |rng, draft| {
        tif(draft).change(rng, Part::Line, body::AMOUNT_WITH_VAT, |rng, field| {
            let place = rng.below(field.len());
            field[place] = if field[place] == b'3' { b'4' } else { b'3' };
        })
    }),
    damage(4, "total of the fees without VAT", |_, draft| {
        let tif = &mut draft.call.tif;
        let lines = TIF.lines_in(tif.len()).expect("a sound file");
        let fee = |line: &[u8]| digits_value(body::FEE_WITHOUT_VAT.of(line)).unwrap_or(0);
        let body = &tif[header::WIDTH..tif.len() - tif_footer::WIDTH];
        let fees: u64 = body.chunks_exact(body::WIDTH).map(fee).sum();
        let amount = |line: &[u8]| digits_value(body::AMOUNT_WITH_VAT.of(line)).unwrap_or(0);
        let amounts: u64 = body.chunks_exact(body::WIDTH).map(amount).sum();
        let at = tif.len() - tif_footer::WIDTH;
        tif_footer::TOTAL.put(&mut tif[at..], &padded(fees, 15));
        lines > 0 && fees != amounts
    }),
];

fn other_actor(rng: &mut Rng, field: &mut [u8]) {
    let before = field.to_vec();
    field.copy_from_slice(&actor(rng));
    if field == before || rng.once_in(2) {
        field.copy_from_slice(&before);
        field[5] = if before[5] == b'7' { b'8' } else { b'7' };
    }
}
