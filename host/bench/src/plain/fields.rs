//! Fields of digits, moments, plates, classes of characters, and keys.

use reference::columns::Columns;

/// The value of a field of up to 19 digits.
pub fn number(field: &[u8]) -> Option<u64> {
    let mut value = 0;
    for &byte in field {
        let digit = byte.wrapping_sub(b'0');
        if digit > 9 {
            return None;
        }
        value = value * 10 + u64::from(digit);
    }
    Some(value)
}

pub fn all_digits(field: &[u8]) -> bool {
    field.iter().all(u8::is_ascii_digit)
}

pub fn all_are(field: &[u8], byte: u8) -> bool {
    field.iter().all(|&found| found == byte)
}

pub fn all_digits_or_capitals(field: &[u8]) -> bool {
    let lawful = |byte: &u8| byte.is_ascii_digit() || byte.is_ascii_uppercase();
    field.iter().all(lawful)
}

const MONTH_LENGTHS: [u64; 12] = [31, 28, 31, 30, 31, 30, 31, 31, 30, 31, 30, 31];

fn is_leap(year: u64) -> bool {
    year.is_multiple_of(4) && (!year.is_multiple_of(100) || year.is_multiple_of(400))
}

/// Whether a number YYYYMMDD is a real date.
fn is_real_date(date: u64) -> bool {
    let (year, month, day) = (date / 10_000, date / 100 % 100, date % 100);
    if year == 0 || !(1..=12).contains(&month) {
        return false;
    }
    let leap_day = u64::from(month == 2 && is_leap(year));
    (1..=MONTH_LENGTHS[month as usize - 1] + leap_day).contains(&day)
}

/// The date of eight digits as a number, where it is real.
pub fn real_date(field: &[u8]) -> Option<u64> {
    number(field).filter(|&date| field.len() == 8 && is_real_date(date))
}

/// The moment of fourteen digits as a number, where it is real.
pub fn real_moment(field: &[u8]) -> Option<u64> {
    if field.len() != 14 {
        return None;
    }
    let moment = number(field)?;
    let (hour, minute, second) = (moment / 10_000 % 100, moment / 100 % 100, moment % 100);
    let real = is_real_date(moment / 1_000_000) && hour <= 23 && minute <= 59 && second <= 59;
    real.then_some(moment)
}

/// Plate characters, then blanks, and two capitals.
pub fn is_filled_plate(plate: &[u8], nation: &[u8]) -> bool {
    let filled = plate
        .iter()
        .take_while(|byte| is_plate_character(**byte))
        .count();
    filled > 0 && all_are(&plate[filled..], b' ') && nation.iter().all(u8::is_ascii_uppercase)
}

fn is_plate_character(byte: u8) -> bool {
    byte.is_ascii_alphanumeric() || matches!(byte, 0xC4 | 0xD6 | 0xDC | 0xE4 | 0xF9)
}

/// A filled plate, or plate and nation blank.
pub fn is_lawful_plate(plate: &[u8], nation: &[u8]) -> bool {
    is_filled_plate(plate, nation) || (all_are(plate, b' ') && all_are(nation, b' '))
}

/// Some columns of a line side by side, as a key of their width.
pub fn joined<const WIDTH: usize>(columns: &[Columns], line: &[u8]) -> [u8; WIDTH] {
    let mut key = [0; WIDTH];
    let mut at = 0;
    for columns in columns {
        let part = columns.of(line);
        key[at..at + part.len()].copy_from_slice(part);
        at += part.len();
    }
    key
}

/// The two-digit number of two bytes.
pub fn two_digits(field: &[u8]) -> Option<u64> {
    number(&field[..2])
}
