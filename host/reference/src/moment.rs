//! Real moments and dates (01, "A moment is YYYYMMDDhhmmss").

use crate::columns::Columns;
use crate::text::{all_digits, digits_value};

const YEAR: Columns = Columns::new(1, 4);
const MONTH: Columns = Columns::new(5, 6);
const DAY: Columns = Columns::new(7, 8);
const HOUR: Columns = Columns::new(9, 10);
const MINUTE: Columns = Columns::new(11, 12);
const SECOND: Columns = Columns::new(13, 14);

pub const DATE_WIDTH: usize = 8;
pub const MOMENT_WIDTH: usize = 14;

/// Month lengths: a row for ordinary years, a row for leap years.
const MONTH_LENGTHS: [[u64; 12]; 2] = [
    [31, 28, 31, 30, 31, 30, 31, 31, 30, 31, 30, 31],
    [31, 29, 31, 30, 31, 30, 31, 31, 30, 31, 30, 31],
];

/// What is first wrong with a moment or a date, in the order of testing.
#[derive(Clone, Copy, Debug, PartialEq, Eq)]
pub enum MomentFault {
    Length = 1,
    NotDigits = 2,
    Year = 3,
    Month = 4,
    Day = 5,
    Hour = 6,
    Minute = 7,
    Second = 8,
}

impl MomentFault {
    pub fn number(self) -> u8 {
        self as u8
    }
}

/// Gregorian leap years, in all years alike.
pub fn is_leap(year: u64) -> bool {
    (year % 4 == 0 && year % 100 != 0) || year % 400 == 0
}

/// The number of days of a month, 1 to 12.
pub fn month_length(year: u64, month: u64) -> u64 {
    MONTH_LENGTHS[usize::from(is_leap(year))][month as usize - 1]
}

/// Whether the bytes are a real date of eight digits, or what is first wrong.
pub fn check_date(date: &[u8]) -> Result<(), MomentFault> {
    check_form(date, DATE_WIDTH)?;
    check_calendar(date)
}

/// Whether the bytes are a real moment of fourteen digits, or what is first wrong.
pub fn check_moment(moment: &[u8]) -> Result<(), MomentFault> {
    check_form(moment, MOMENT_WIDTH)?;
    check_calendar(moment)?;
    check_clock(moment)
}

pub fn is_real_date(date: &[u8]) -> bool {
    check_date(date).is_ok()
}

pub fn is_real_moment(moment: &[u8]) -> bool {
    check_moment(moment).is_ok()
}

fn check_form(text: &[u8], width: usize) -> Result<(), MomentFault> {
    if text.len() != width {
        return Err(MomentFault::Length);
    }
    require(all_digits(text), MomentFault::NotDigits)
}

fn check_calendar(text: &[u8]) -> Result<(), MomentFault> {
    let (year, month, day) = (part(text, YEAR), part(text, MONTH), part(text, DAY));
    require(year >= 1, MomentFault::Year)?;
    require((1..=12).contains(&month), MomentFault::Month)?;
    let days = 1..=month_length(year, month);
    require(days.contains(&day), MomentFault::Day)
}

fn check_clock(text: &[u8]) -> Result<(), MomentFault> {
    require(part(text, HOUR) <= 23, MomentFault::Hour)?;
    require(part(text, MINUTE) <= 59, MomentFault::Minute)?;
    require(part(text, SECOND) <= 59, MomentFault::Second)
}

fn part(text: &[u8], columns: Columns) -> u64 {
    digits_value(columns.of(text)).expect("only digits are left")
}

fn require(holds: bool, fault: MomentFault) -> Result<(), MomentFault> {
    if holds {
        Ok(())
    } else {
        Err(fault)
    }
}
