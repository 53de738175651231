//! Damages to the agreement book, one for each way of its form.

use super::book_model::{BookModel, PeriodModel};
use super::clock::unreal_moment;
use super::damage::{replace_one, Damage, Draft, Gives};
use super::rng::Rng;
use crate::book::NO_END;
use crate::columns::book_entry;

/// A damage to the bytes of the book.
const fn damage(what: &'static str, apply: fn(&mut Rng, &mut Draft) -> bool) -> Damage {
    Damage {
        what,
        gives: Gives::Refusal(5),
        apply,
    }
}

/// Changes the book's value and renders it anew, if there is an agreement.
fn remodel(rng: &mut Rng, draft: &mut Draft, change: fn(&mut Rng, &mut BookModel) -> bool) -> bool {
    if draft.book.is_empty() {
        return false;
    }
    let changed = change(rng, &mut draft.book);
    draft.call.book = draft.book.render();
    changed
}

/// Changes one period of the book.
fn one_period(rng: &mut Rng, draft: &mut Draft, change: fn(&mut Rng, &mut PeriodModel)) -> bool {
    if draft.book.is_empty() {
        return false;
    }
    let count = draft.book.agreements.len();
    let agreement = &mut draft.book.agreements[rng.below(count)];
    let periods = agreement.periods.len();
    let chosen = rng.below(periods);
    change(rng, &mut agreement.periods[chosen]);
    draft.call.book = draft.book.render();
    true
}

/// Changes the PAN of one agreement.
fn one_pan(rng: &mut Rng, draft: &mut Draft, change: fn(&mut Rng, &mut [u8])) -> bool {
    if draft.book.is_empty() {
        return false;
    }
    let chosen = rng.below(draft.book.agreements.len());
    change(rng, &mut draft.book.agreements[chosen].pan);
    draft.call.book = draft.book.render();
    true
}

/// Adds to one of the entries' offsets.
fn move_offset(draft: &mut Draft, chosen: usize, by: u32) {
    let place = 2 + book_entry::WIDTH * chosen + book_entry::OFFSET.offset();
    let field = &mut draft.call.book[place..place + 4];
    let offset = u32::from_be_bytes(field.try_into().expect("four bytes"));
    field.copy_from_slice(&offset.wrapping_add(by).to_be_bytes());
}

/// Puts bytes before the body of one agreement, the offsets following suit.
fn gap_before_body(rng: &mut Rng, draft: &mut Draft) -> bool {
    let count = draft.book.agreements.len();
    if count == 0 {
        return false;
    }
    let (chosen, width) = (rng.below(count), 1 + rng.below(4));
    let place = 2 + book_entry::WIDTH * chosen + book_entry::OFFSET.offset();
    let field: [u8; 4] = draft.call.book[place..place + 4]
        .try_into()
        .expect("four bytes");
    let body = u32::from_be_bytes(field) as usize;
    for entry in chosen..count {
        move_offset(draft, entry, width as u32);
    }
    draft.call.book.splice(body..body, rng.bytes(width));
    true
}

pub const BOOK_DAMAGES: &[Damage] = &[
    damage("book without a count", |rng, draft| {
        draft.call.book.truncate(rng.below(2));
        true
    }),
    damage("book with another count", |rng, draft| {
        let count = draft.book.agreements.len() as u16;
        let other = *rng.pick(&[count + 1, count.wrapping_sub(1), 1_001, 65_535, count + 256]);
        draft.call.book[..2].copy_from_slice(&other.to_be_bytes());
        true
    }),
    damage("book cut short", |rng, draft| {
        let length = draft.call.book.len();
        let cut = *rng.pick(&[1, 2, 40, 41]);
        draft.call.book.truncate(length.saturating_sub(cut));
        true
    }),
    damage("book with bytes after its end", |rng, draft| {
        let extra = *rng.pick(&[1, 2, 40]);
        draft.call.book.extend(rng.bytes(extra));
        true
    }),
    damage("book with a gap before a body", gap_before_body),
    damage("book with a wrong offset", |rng, draft| {
        let count = draft.book.agreements.len();
        if count > 0 {
            let by = *rng.pick(&[1, 40, 1 << 16, 1 << 24, u32::MAX, u32::MAX - 39]);
            move_offset(draft, rng.below(count), by);
        }
        count > 0
    }),
    damage("book with bodies in another order", |rng, draft| {
        let count = draft.book.agreements.len();
        if count > 1 {
            let chosen = rng.below(count - 1);
            let last = *rng.pick(&[chosen + 1, count - 1]);
            let here = 2 + book_entry::WIDTH * chosen + book_entry::OFFSET.offset();
            let there = 2 + book_entry::WIDTH * last + book_entry::OFFSET.offset();
            for step in 0..4 {
                draft.call.book.swap(here + step, there + step);
            }
        }
        count > 1
    }),
    damage("book with a blank PAN", |rng, draft| {
        one_pan(rng, draft, |_, pan| pan.fill(b' '))
    }),
    damage("book with a PAN beginning blank", |rng, draft| {
        one_pan(rng, draft, |_, pan| pan[0] = b' ')
    }),
    damage("book with a digit after a blank in a PAN", |rng, draft| {
        one_pan(rng, draft, |_, pan| {
            pan[17] = b' ';
            pan[18] = b'1';
        })
    }),
    damage("book with a PAN not digits", |rng, draft| {
        one_pan(rng, draft, |rng, pan| {
            let filled = pan.iter().take_while(|byte| byte.is_ascii_digit()).count();
            replace_one(rng, &mut pan[..filled], b"/:-A\x00\xFF");
        })
    }),
    damage("book with a PAN twice", |rng, draft| {
        remodel(rng, draft, |rng, book| {
            let chosen = rng.below(book.agreements.len());
            let again = book.agreements[chosen].clone();
            book.agreements.insert(chosen, again);
            true
        })
    }),
    damage("book with falling PANs", |rng, draft| {
        remodel(rng, draft, |rng, book| {
            let pairs = book.agreements.len() - 1;
            if pairs > 0 {
                let chosen = rng.below(pairs);
                book.agreements.swap(chosen, chosen + 1);
            }
            pairs > 0
        })
    }),
    damage("agreement with no period", |rng, draft| {
        remodel(rng, draft, |rng, book| {
            let count = book.agreements.len();
            book.agreements[rng.below(count)].periods.clear();
            true
        })
    }),
    damage("agreement with 65 periods", |rng, draft| {
        remodel(rng, draft, |rng, book| {
            let count = book.agreements.len();
            let agreement = &mut book.agreements[rng.below(count)];
            let plate = agreement.periods[0].plate_and_nation.clone();
            let period = |hour: u64| PeriodModel::new(&plate, hour * 3_600, hour * 3_600 + 60);
            agreement.periods = (1..=65).map(period).collect();
            true
        })
    }),
    damage("period with a blank plate", |rng, draft| {
        one_period(rng, draft, |_, period| {
            period.plate_and_nation[..10].fill(b' ');
        })
    }),
    damage("period with plate and nation blank", |rng, draft| {
        one_period(rng, draft, |_, period| period.plate_and_nation.fill(b' '))
    }),
    damage("period with a plate out of the set", |rng, draft| {
        one_period(rng, draft, |rng, period| {
            let place = rng.below(10);
            period.plate_and_nation[place] = *rng.pick(b"\xC5-\x00\n\xFF.");
        })
    }),
    damage("period with a plate broken by a blank", |rng, draft| {
        one_period(rng, draft, |rng, period| {
            let texts: [&[u8; 10]; 3] = [b"AB 12345  ", b" AB12345  ", b"AB12345  9"];
            period.plate_and_nation[..10].copy_from_slice(*rng.pick(&texts));
        })
    }),
    damage("period with a nation not capitals", |rng, draft| {
        one_period(rng, draft, |rng, period| {
            let nation = rng.pick(&[b"no", b"No", b"N ", b" N", b"  ", b"N1", b"\xC4\xD6"]);
            period.plate_and_nation[10..].copy_from_slice(*nation);
        })
    }),
    damage("period with an unreal start", |rng, draft| {
        one_period(rng, draft, |rng, period| period.start = unreal_moment(rng))
    }),
    damage("period with an unreal end", |rng, draft| {
        one_period(rng, draft, |rng, period| {
            period.end = unreal_moment(rng);
            if period.end == NO_END {
                period.end[13] = b'8';
            }
        })
    }),
    damage("period that ends where it starts", |rng, draft| {
        one_period(rng, draft, |_, period| period.end = period.start.clone())
    }),
    damage("period that ends before it starts", |rng, draft| {
        one_period(rng, draft, |_, period| {
            std::mem::swap(&mut period.start, &mut period.end);
        })
    }),
    damage("no end before the last period", |rng, draft| {
        remodel(rng, draft, |rng, book| {
            let count = book.agreements.len();
            let agreement = &mut book.agreements[rng.below(count)];
            let earlier = agreement.periods.len() - 1;
            if earlier > 0 {
                agreement.periods[rng.below(earlier)].end = NO_END.to_vec();
            }
            earlier > 0
        })
    }),
    damage("period starting before the end before it", |rng, draft| {
        remodel(rng, draft, |rng, book| {
            let count = book.agreements.len();
            let periods = &mut book.agreements[rng.below(count)].periods;
            let later = periods.len() - 1;
            if later > 0 {
                let chosen = 1 + rng.below(later);
                let plate = periods[chosen].plate_and_nation.clone();
                let before = periods[chosen - 1].end_seconds;
                let end = periods[chosen].end.clone();
                periods[chosen] = PeriodModel::new(&plate, before - 1, before);
                periods[chosen].end = end;
            }
            later > 0
        })
    }),
];
