//! Damages to the station table, one for each cause of E8.

use super::damage::{replace_one, Damage, Draft, Gives, NOT_DIGIT_OR_CAPITAL};
use super::file_draft::{FileDraft, Part};
use super::rng::Rng;
use crate::columns::{tst_header as header, tst_line};
use crate::lines::TST;

const fn damage(what: &'static str, apply: fn(&mut Rng, &mut Draft) -> bool) -> Damage {
    Damage {
        what,
        gives: Gives::Refusal(8),
        apply,
    }
}

/// Spoils the table, if one is lent.
fn spoil(
    rng: &mut Rng,
    draft: &mut Draft,
    spoil: fn(&mut Rng, &mut FileDraft<'_>) -> bool,
) -> bool {
    let mut table = FileDraft {
        bytes: &mut draft.call.tst,
        layout: TST,
    };
    !table.bytes.is_empty() && spoil(rng, &mut table)
}

/// The place of one of the lines, if there is one.
fn any_line(rng: &mut Rng, table: &FileDraft) -> Option<std::ops::Range<usize>> {
    let lines = table.lines();
    (lines > 0).then(|| {
        let start = TST.place_of_line(1 + rng.below(lines));
        start..start + TST.line
    })
}

/// Puts a line before one of the lines or before the footer.
fn put_in(rng: &mut Rng, table: &mut FileDraft, line: Vec<u8>) {
    let at = TST.place_of_line(1 + rng.below(table.lines() + 1));
    table.bytes.splice(at..at, line);
}

/// A line again, its triple as it is, at another place and with another name.
fn repeat_triple(rng: &mut Rng, table: &mut FileDraft) -> bool {
    let Some(place) = any_line(rng, table) else {
        return false;
    };
    let mut again = table.bytes[place].to_vec();
    let named = *rng.pick(&tst_line::FREE);
    replace_one(rng, &mut again[named.offset()..named.last], b"xyz ");
    put_in(rng, table, again);
    table.add_to(header::RECORDS.offset(), 1);
    true
}

pub const TST_DAMAGES: &[Damage] = &[
    damage("table cut short", |rng, draft| {
        spoil(rng, draft, |rng, table| {
            let length = table.bytes.len();
            let left = *rng.pick(&[1, 127, 128, 191, length - 1, length - 64]);
            table.bytes.truncate(left);
            true
        })
    }),
    damage("table with bytes after its end", |rng, draft| {
        spoil(rng, draft, |rng, table| {
            let extra = *rng.pick(&[1, 64, 232]);
            table.bytes.extend(vec![b'\n'; extra]);
            true
        })
    }),
    damage("table with a byte put in", |rng, draft| {
        spoil(rng, draft, |rng, table| table.put_byte_in(rng))
    }),
    damage("table with a byte taken out", |rng, draft| {
        spoil(rng, draft, |rng, table| table.take_byte_out(rng))
    }),
    damage("table with a line feed missing", |rng, draft| {
        spoil(rng, draft, |rng, table| table.lose_line_feed(rng))
    }),
    damage("table with a line feed elsewhere", |rng, draft| {
        spoil(rng, draft, |rng, table| table.put_line_feed_elsewhere(rng))
    }),
    damage("table with a line feed one place early", |rng, draft| {
        spoil(rng, draft, |rng, table| table.move_line_feed(rng))
    }),
    damage("table with column 1 wrong", |rng, draft| {
        spoil(rng, draft, |rng, table| table.spoil_register(rng))
    }),
    damage("table of another version", |rng, draft| {
        spoil(rng, draft, |rng, table| {
            table.change(rng, Part::Header, header::VERSION, |rng, field| {
                if rng.once_in(3) {
                    field.copy_from_slice(b"130001");
                } else {
                    replace_one(rng, field, b"29 A");
                }
            })
        })
    }),
    damage("table with records not digits", |rng, draft| {
        spoil(rng, draft, |rng, table| {
            table.break_digits(rng, Part::Header, header::RECORDS)
        })
    }),
    damage("table with another count of records", |rng, draft| {
        spoil(rng, draft, |rng, table| {
            let by = *rng.pick(&[1, -1, 10_000, 65_536, 1 << 32, 100_000_000_000_000]);
            table.add_to(header::RECORDS.offset(), by);
            true
        })
    }),
    damage("table with a line that is not counted", |rng, draft| {
        spoil(rng, draft, |rng, table| {
            let mut line = rng.text(b"0123456789", TST.line);
            line[0] = b'1';
            line[TST.line - 1] = b'\n';
            put_in(rng, table, line);
            true
        })
    }),
    damage("table with a line taken out", |rng, draft| {
        spoil(rng, draft, |rng, table| {
            let place = any_line(rng, table);
            place.is_some_and(|place| table.bytes.drain(place).len() > 0)
        })
    }),
    damage("table with an actor out of form", |rng, draft| {
        spoil(rng, draft, |rng, table| {
            table.change(rng, Part::Line, tst_line::ACTOR, |rng, field| {
                replace_one(rng, field, NOT_DIGIT_OR_CAPITAL);
            })
        })
    }),
    damage("table with a station not digits", |rng, draft| {
        spoil(rng, draft, |rng, table| {
            table.break_digits(rng, Part::Line, tst_line::STATION)
        })
    }),
    damage("table with a lane not digits", |rng, draft| {
        spoil(rng, draft, |rng, table| {
            table.break_digits(rng, Part::Line, tst_line::LANE)
        })
    }),
    damage("table with a triple twice", |rng, draft| {
        spoil(rng, draft, repeat_triple)
    }),
];
