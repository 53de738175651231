//! Parts of passages, and sound body lines made of them.

use super::rng::Rng;
use crate::columns::body;
use crate::example::{put_passage, Passage, BLANK_PAN, BLANK_PLATE};

pub const ACTOR_CHARACTERS: &[u8] = b"0123456789ABCDEFGHIJKLMNOPQRSTUVWXYZ";
pub const PLATE_CHARACTERS: &[u8] =
    b"0123456789ABCDEFGHIJKLMNOPQRSTUVWXYZ0123456789ABCDEFGHIJKLMNOPQRSTUVWXYZaz\xC4\xD6\xDC\xE4\xF9";

const TARIFF_CLASSES: [&[u8; 2]; 10] = [
    b"01", b"02", b"12", b"22", b"31", b"32", b"41", b"51", b"63", b"71",
];
const EMISSIONS: [&[u8; 2]; 9] = [
    b"00", b"01", b"02", b"03", b"04", b"05", b"06", b"07", b"15",
];
const FUELS: [&[u8; 2]; 16] = [
    b"01", b"02", b"03", b"04", b"05", b"06", b"09", b"10", b"11", b"12", b"13", b"14", b"15",
    b"20", b"21", b"22",
];
const DEBIT_TYPES: [&[u8; 2]; 7] = [b"C1", b"C1", b"C8", b"C3", b"C4", b"D1", b"D8"];

pub fn actor(rng: &mut Rng) -> Vec<u8> {
    rng.text(ACTOR_CHARACTERS, 6)
}

/// One or more digits, then blanks.
pub fn pan(rng: &mut Rng) -> Vec<u8> {
    let filled = *rng.pick(&[19, 19, 19, 18, 10, 2, 1]);
    let mut pan = b"9578".to_vec();
    pan.extend(rng.digits(15));
    pan.truncate(filled);
    if filled < 4 {
        pan = rng.digits(filled);
    }
    pan.resize(19, b' ');
    pan
}

pub fn blank_pan() -> Vec<u8> {
    BLANK_PAN.to_vec()
}

/// A filled plate with its nation, twelve bytes.
pub fn filled_plate(rng: &mut Rng) -> Vec<u8> {
    let filled = *rng.pick(&[7, 7, 7, 1, 2, 6, 9, 10]);
    let mut plate = rng.text(PLATE_CHARACTERS, filled);
    plate.resize(10, b' ');
    let nation = *rng.pick(&[b"NO", b"NO", b"SE", b"DK", b"DE"]);
    plate.extend(nation);
    plate
}

/// A plate lawful on a line, blank among them.
pub fn any_plate(rng: &mut Rng) -> Vec<u8> {
    if rng.once_in(4) {
        BLANK_PLATE.to_vec()
    } else {
        filled_plate(rng)
    }
}

pub fn amount(rng: &mut Rng) -> u64 {
    match rng.below(20) {
        0 => 0,
        1 => 99_999_999_999,
        2 => rng.between(0, 99_999_999_999),
        _ => rng.between(1, 40_000),
    }
}

pub fn any_passage(rng: &mut Rng, actor: &[u8], moment: Vec<u8>) -> Passage {
    Passage {
        pan: if rng.once_in(3) {
            blank_pan()
        } else {
            pan(rng)
        },
        moment,
        actor: actor.to_vec(),
        station_and_lane: rng.digits(8),
        detected: any_plate(rng),
        amount: amount(rng),
    }
}

pub fn debit_type(rng: &mut Rng) -> Vec<u8> {
    rng.pick(&DEBIT_TYPES).to_vec()
}

/// A line that passes L1 to L5 on the side of its type, for this passage.
pub fn line(rng: &mut Rng, kind: &[u8], passage: &Passage) -> Vec<u8> {
    let mut line = unused_columns(rng);
    put_passage(&mut line, kind, passage);
    vary_the_rest(rng, &mut line);
    line
}

/// What neither L6 nor L8 compares: counter, declared plate and vehicle.
pub fn vary_the_rest(rng: &mut Rng, line: &mut [u8]) {
    let declared = any_plate(rng);
    body::COUNTER.put(line, &rng.digits(12));
    body::DECLARED_PLATE.put(line, &declared[..10]);
    body::DECLARED_NATION.put(line, &declared[10..]);
    let mut fuel = rng.pick(&FUELS).to_vec();
    fuel.push(*rng.pick(b"YN"));
    body::FUEL.put(line, &fuel);
    body::EMISSION.put(line, *rng.pick(&EMISSIONS));
    body::TARIFF_CLASS.put(line, *rng.pick(&TARIFF_CLASSES));
}

/// Columns that no rule reads: zeros, now and then any byte but a line feed.
fn unused_columns(rng: &mut Rng) -> Vec<u8> {
    let mut line = vec![b'0'; body::WIDTH];
    if rng.once_in(10) {
        let strange = rng.bytes(40);
        let start = rng.below(body::WIDTH - strange.len());
        for (place, byte) in (start..).zip(strange) {
            line[place] = if byte == b'\n' { 0 } else { byte };
        }
    }
    line
}
