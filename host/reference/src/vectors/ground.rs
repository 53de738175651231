//! Vectors for moments (`M`) and dates (`D`), with those for plates (`P`) and
//! digit fields (`N`) mixed in.

use super::ground_fields::{digit_field_cases, plate_cases};
use super::Case;
use crate::generator::rng::Rng;
use crate::moment::{check_date, check_moment, month_length, MomentFault};

/// Years whose February says something, and the ends of the range.
const TELLING_YEARS: [u64; 13] = [
    0, 1, 4, 100, 400, 1900, 1999, 2000, 2023, 2024, 2026, 2100, 9999,
];

/// Bytes beside the digits, and others that a hasty test lets through.
pub(super) const NOT_DIGITS: [u8; 12] = [
    0x2F, 0x3A, b' ', b'-', b'+', b'.', b'A', b'a', 0x00, 0x0A, 0xB2, 0xFF,
];

/// All cases, in a fixed mixed order.
pub fn cases() -> Vec<Case> {
    let mut rng = Rng::new(0, 100);
    let mut cases = moment_cases(&mut rng);
    cases.extend(date_cases(&mut rng));
    cases.extend(plate_cases(&mut rng));
    cases.extend(digit_field_cases(&mut rng));
    rng.shuffle(&mut cases);
    cases
}

fn fault_number(answer: Result<(), MomentFault>) -> String {
    answer
        .map_or_else(|fault| fault.number(), |()| 0)
        .to_string()
}

fn moment_case(moment: &[u8]) -> Case {
    Case::new(b'M', &[moment], fault_number(check_moment(moment)))
}

fn date_case(date: &[u8]) -> Case {
    Case::new(b'D', &[date], fault_number(check_date(date)))
}

fn date_text(year: u64, month: u64, day: u64) -> Vec<u8> {
    format!("{year:04}{month:02}{day:02}").into_bytes()
}

fn moment_text(date: &[u8], hour: u64, minute: u64, second: u64) -> Vec<u8> {
    let mut text = date.to_vec();
    text.extend(format!("{hour:02}{minute:02}{second:02}").into_bytes());
    text
}

/// Every month's last day and the day after, months 00, 13 and 99, in telling years.
fn telling_dates() -> Vec<Vec<u8>> {
    let mut dates = Vec::new();
    for year in TELLING_YEARS {
        for month in 1..=12 {
            let last = month_length(year, month);
            dates.push(date_text(year, month, last));
            dates.push(date_text(year, month, last + 1));
        }
        for (month, day) in [(0, 1), (13, 1), (99, 1), (1, 0), (12, 32), (2, 30), (6, 99)] {
            dates.push(date_text(year, month, day));
        }
    }
    dates
}

fn real_date(rng: &mut Rng) -> Vec<u8> {
    let year = rng.between(1, 9999);
    let month = rng.between(1, 12);
    let day = rng.between(1, month_length(year, month));
    date_text(year, month, day)
}

fn real_moment(rng: &mut Rng) -> Vec<u8> {
    let date = real_date(rng);
    moment_text(
        &date,
        rng.between(0, 23),
        rng.between(0, 59),
        rng.between(0, 59),
    )
}

/// The text with one byte that is no digit, at each place in turn.
fn with_strangers(rng: &mut Rng, make: fn(&mut Rng) -> Vec<u8>) -> Vec<Vec<u8>> {
    let width = make(rng).len();
    let mut texts = Vec::new();
    for place in 0..width {
        for stranger in NOT_DIGITS {
            let mut text = make(rng);
            text[place] = stranger;
            texts.push(text);
        }
    }
    texts
}

/// The text shortened and lengthened, also to nothing.
fn with_other_lengths(rng: &mut Rng, make: fn(&mut Rng) -> Vec<u8>) -> Vec<Vec<u8>> {
    let width = make(rng).len();
    [0, 1, 4, 7, 8, 9, 13, 14, 15, 16, 28]
        .into_iter()
        .filter(|&length| length != width)
        .map(|length| make(rng).into_iter().cycle().take(length).collect())
        .collect()
}

/// Hours, minutes and seconds at and past their ends.
fn telling_clocks(rng: &mut Rng) -> Vec<Vec<u8>> {
    let mut moments = Vec::new();
    for (hour, minute, second) in [
        (0, 0, 0),
        (23, 59, 59),
        (24, 0, 0),
        (23, 60, 0),
        (23, 59, 60),
        (24, 60, 60),
        (23, 60, 60),
        (99, 0, 0),
        (0, 99, 0),
        (0, 0, 99),
        (19, 9, 9),
        (20, 10, 10),
        (29, 59, 59),
    ] {
        for _ in 0..4 {
            moments.push(moment_text(&real_date(rng), hour, minute, second));
        }
    }
    moments
}

/// Two parts wrong at once: the first in order is to be named.
fn doubly_wrong_moments(rng: &mut Rng) -> Vec<Vec<u8>> {
    let wrong: [(std::ops::Range<usize>, &[u8]); 6] = [
        (0..4, b"0000"),
        (4..6, b"13"),
        (6..8, b"00"),
        (8..10, b"24"),
        (10..12, b"60"),
        (12..14, b"60"),
    ];
    let mut moments = Vec::new();
    for (first, first_text) in &wrong {
        for (second, second_text) in &wrong {
            let mut moment = real_moment(rng);
            moment[first.clone()].copy_from_slice(first_text);
            moment[second.clone()].copy_from_slice(second_text);
            moments.push(moment.clone());
            moment[rng.below(14)] = *rng.pick(&NOT_DIGITS);
            moments.push(moment);
        }
    }
    moments
}

fn moment_cases(rng: &mut Rng) -> Vec<Case> {
    let mut moments: Vec<Vec<u8>> = [
        "20240229000000",
        "20230229000000",
        "21000229000000",
        "20260615240000",
        "99999999999999",
        "00000000000000",
        "99991231235959",
        "00010101000000",
    ]
    .map(|text| text.as_bytes().to_vec())
    .to_vec();
    for date in telling_dates() {
        moments.push(moment_text(
            &date,
            rng.between(0, 24),
            rng.between(0, 59),
            59,
        ));
    }
    moments.extend(telling_clocks(rng));
    moments.extend(doubly_wrong_moments(rng));
    moments.extend(with_strangers(rng, real_moment));
    moments.extend(with_other_lengths(rng, real_moment));
    moments.extend((0..200).map(|_| real_moment(rng)));
    moments.extend((0..200).map(|_| rng.digits(14)));
    moments.iter().map(|moment| moment_case(moment)).collect()
}

fn date_cases(rng: &mut Rng) -> Vec<Case> {
    let mut dates = telling_dates();
    dates.extend(with_strangers(rng, real_date));
    dates.extend(with_other_lengths(rng, real_date));
    dates.extend((0..100).map(|_| real_date(rng)));
    dates.extend((0..100).map(|_| rng.digits(8)));
    dates.iter().map(|date| date_case(date)).collect()
}
