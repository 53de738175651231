//! Plates with their nations (01, L5 and the book's periods).

use crate::text::{all_blanks, all_capitals, filled_then_blanks};

pub const PLATE_WIDTH: usize = 10;
pub const NATION_WIDTH: usize = 2;

/// The plate set: 0-9, A-Z, a-z and C4, D6, DC, E4, F9 of ISO 8859-1 (01, L5).
pub fn in_plate_set(byte: u8) -> bool {
    byte.is_ascii_alphanumeric() || [0xC4, 0xD6, 0xDC, 0xE4, 0xF9].contains(&byte)
}

/// A plate with one or more characters, then blanks, and a nation of two capitals.
pub fn is_filled(plate: &[u8], nation: &[u8]) -> bool {
    filled_then_blanks(plate, in_plate_set) && all_capitals(nation)
}

/// A plate and a nation that are both blank.
pub fn is_blank(plate: &[u8], nation: &[u8]) -> bool {
    all_blanks(plate) && all_blanks(nation)
}

/// Lawful on a TIF line: filled or blank (01, L5).
pub fn lawful_on_line(plate: &[u8], nation: &[u8]) -> bool {
    is_filled(plate, nation) || is_blank(plate, nation)
}

/// Lawful in the book: filled.
pub fn lawful_in_book(plate: &[u8], nation: &[u8]) -> bool {
    is_filled(plate, nation)
}
