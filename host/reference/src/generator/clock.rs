//! Moments by number, so that one can be picked between two others.

use super::rng::Rng;
use crate::moment::month_length;

const FIRST_YEAR: u64 = 2020;
const DAY: u64 = 86_400;

/// Some seven years of seconds from the first moment of 2020.
pub const SPAN: u64 = 7 * 365 * DAY;

/// The moment so many seconds after the first of 2020, as written.
pub fn written(seconds: u64) -> Vec<u8> {
    let (mut year, mut month, mut day) = (FIRST_YEAR, 1, seconds / DAY);
    while day >= month_length(year, month) {
        day -= month_length(year, month);
        (year, month) = if month == 12 {
            (year + 1, 1)
        } else {
            (year, month + 1)
        };
    }
    let clock = seconds % DAY;
    format!(
        "{year:04}{month:02}{:02}{:02}{:02}{:02}",
        day + 1,
        clock / 3600,
        clock / 60 % 60,
        clock % 60
    )
    .into_bytes()
}

/// Any moment of the span.
pub fn any_moment(rng: &mut Rng) -> Vec<u8> {
    written(rng.between(0, SPAN))
}

/// Fourteen bytes that are no real moment.
pub fn unreal_moment(rng: &mut Rng) -> Vec<u8> {
    let mut moment = any_moment(rng);
    let wrong: [(usize, &[u8]); 12] = [
        (0, b"0000"),
        (4, b"00"),
        (4, b"13"),
        (6, b"00"),
        (6, b"32"),
        (4, b"0230"),
        (0, b"21000229"),
        (8, b"24"),
        (10, b"60"),
        (12, b"60"),
        (0, b"99999999999999"),
        (0, b"              "),
    ];
    let (place, text) = *rng.pick(&wrong);
    moment[place..place + text.len()].copy_from_slice(text);
    if rng.once_in(4) {
        moment[rng.below(14)] = *rng.pick(b"/: A\x00\xFF");
    }
    moment
}
