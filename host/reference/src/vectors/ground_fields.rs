//! Vectors for plates with their nations (`P`) and for digit fields (`N`).

use super::ground::NOT_DIGITS;
use super::Case;
use crate::generator::rng::Rng;
use crate::plate::{lawful_in_book, lawful_on_line};
use crate::text::digits_value;

/// Bytes that are telling in a plate, next to every other byte value.
const TELLING_IN_PLATES: [u8; 16] = [
    0xC4, 0xC5, 0xD6, 0xDC, 0xE4, 0xF9, 0x20, 0x0A, 0x00, 0xFF, 0x2F, 0x3A, 0x40, 0x5B, 0x60, 0x7B,
];

const PLATE_CHARACTERS: &[u8] =
    b"0123456789ABCDEFGHIJKLMNOPQRSTUVWXYZabcdefghijklmnopqrstuvwxyz\xC4\xD6\xDC\xE4\xF9";

fn plate_case(plate: &[u8], nation: &[u8]) -> Case {
    let on_line = u8::from(lawful_on_line(plate, nation));
    let in_book = u8::from(lawful_in_book(plate, nation));
    Case::new(b'P', &[plate, nation], format!("{on_line} {in_book}"))
}

fn digit_field_case(field: &[u8]) -> Case {
    let answer = digits_value(field).map_or("-".to_string(), |value| value.to_string());
    Case::new(b'N', &[field], answer)
}

/// A plate of so many characters of the plate set, then blanks.
fn plate_of(rng: &mut Rng, filled: usize) -> Vec<u8> {
    let mut plate = rng.text(PLATE_CHARACTERS, filled);
    plate.resize(10, b' ');
    plate
}

fn nation(rng: &mut Rng) -> Vec<u8> {
    rng.text(b"ABCDEFGHIJKLMNOPQRSTUVWXYZ", 2)
}

/// Every byte value at the first, an inner and the last place, and after a blank.
fn plates_with_every_byte(rng: &mut Rng) -> Vec<Case> {
    let mut cases = Vec::new();
    for byte in 0..=255 {
        for (filled, place) in [(1, 0), (10, 9), (7, 3)] {
            let mut plate = plate_of(rng, filled);
            plate[place] = byte;
            cases.push(plate_case(&plate, &nation(rng)));
        }
    }
    for byte in TELLING_IN_PLATES {
        for place in 0..10 {
            let mut plate = plate_of(rng, 6);
            plate[place] = byte;
            cases.push(plate_case(&plate, &nation(rng)));
        }
    }
    cases
}

/// Every byte value in a nation, with a filled and with a blank plate.
fn nations_with_every_byte(rng: &mut Rng) -> Vec<Case> {
    let mut cases = Vec::new();
    for byte in 0..=255u8 {
        let mut filled_nation = nation(rng);
        filled_nation[usize::from(byte % 2)] = byte;
        cases.push(plate_case(&plate_of(rng, 7), &filled_nation));
        let mut blank_nation = *b"  ";
        blank_nation[usize::from(byte / 2 % 2)] = byte;
        cases.push(plate_case(b"          ", &blank_nation));
    }
    for text in [
        b"  ",
        b"no",
        b"No",
        b"nO",
        b"N ",
        b" N",
        b"N1",
        b"00",
        b"NO",
        b"\xC4\xD6",
    ] {
        cases.push(plate_case(&plate_of(rng, 7), text));
        cases.push(plate_case(b"          ", text));
    }
    cases
}

/// Blanks inside and garbage at the end.
fn broken_plates(rng: &mut Rng) -> Vec<Case> {
    let mut cases = Vec::new();
    for filled in 0..=10 {
        cases.push(plate_case(&plate_of(rng, filled), &nation(rng)));
        cases.push(plate_case(&plate_of(rng, filled), b"  "));
        for place in filled..10 {
            let mut plate = plate_of(rng, filled);
            plate[place] = *rng.pick(PLATE_CHARACTERS);
            cases.push(plate_case(&plate, &nation(rng)));
        }
    }
    cases
}

pub(super) fn plate_cases(rng: &mut Rng) -> Vec<Case> {
    let mut cases = plates_with_every_byte(rng);
    cases.extend(nations_with_every_byte(rng));
    cases.extend(broken_plates(rng));
    cases
}

pub(super) fn digit_field_cases(rng: &mut Rng) -> Vec<Case> {
    let mut fields = Vec::new();
    for width in 1..=15 {
        fields.push(vec![b'0'; width]);
        fields.push(vec![b'9'; width]);
        let mut one = vec![b'0'; width];
        one[width - 1] = b'1';
        fields.push(one);
        fields.extend((0..8).map(|_| rng.digits(width)));
        for place in 0..width {
            for _ in 0..3 {
                let mut field = rng.digits(width);
                field[place] = *rng.pick(&NOT_DIGITS);
                fields.push(field);
            }
        }
    }
    for byte in 0..=255 {
        fields.push(vec![byte]);
    }
    fields.iter().map(|field| digit_field_case(field)).collect()
}
