//! Lines of a world: acceptable ones, and ones with a flaw for each verdict.

use super::book_model::PeriodModel;
use super::clock::{any_moment, unreal_moment, written};
use super::passage::{
    actor, any_passage, blank_pan, debit_type, filled_plate, line, pan, vary_the_rest,
};
use super::rng::Rng;
use super::world::World;
use crate::columns::{body, Columns};
use crate::example::Passage;
use crate::tif_writer::amount_of;

/// The next line of a DEB file.
pub fn debit_line(rng: &mut Rng, world: &World) -> Vec<u8> {
    let mut line = covered_line(rng, world);
    if rng.percent(45) {
        match rng.between(1, 7) {
            6 => repeat_earlier(rng, world, &mut line),
            7 => uncover(rng, &mut line),
            number => spoil(rng, number, &mut line),
        }
    }
    if rng.once_in(20) {
        let number = rng.between(1, 5);
        spoil(rng, number, &mut line);
    }
    line
}

/// The next line of a CRE file.
pub fn credit_line(rng: &mut Rng, world: &World) -> Vec<u8> {
    let mut line = crediting_line(rng, world);
    if rng.percent(40) {
        match rng.between(1, 6) {
            6 => change_one(rng, &body::AGREEING, &mut line),
            number => spoil(rng, number, &mut line),
        }
    }
    if !world.lines.is_empty() && rng.once_in(8) {
        line.clone_from(rng.pick(&world.lines));
    }
    line
}

/// A line that a period of the book covers, by its PAN or by its plate.
fn covered_line(rng: &mut Rng, world: &World) -> Vec<u8> {
    let moment = any_moment(rng);
    let mut passage = any_passage(rng, world.sender(), moment);
    if !world.book.is_empty() {
        let agreement = rng.pick(&world.book.agreements);
        let period = rng.pick(&agreement.periods);
        passage.moment = moment_in(rng, period);
        if rng.once_in(2) {
            passage.pan.clone_from(&agreement.pan);
        } else {
            passage.pan = blank_pan();
            passage.detected.clone_from(&period.plate_and_nation);
        }
    }
    let kind = debit_type(rng);
    line(rng, &kind, &passage)
}

/// A moment that the period covers, often its first or last; at times its end
/// or the second before its start, which it does not cover.
fn moment_in(rng: &mut Rng, period: &PeriodModel) -> Vec<u8> {
    let (start, end) = (period.start_seconds, period.end_seconds);
    match rng.below(12) {
        0 => written(start),
        1 => written(end - 1),
        2 => written(end),
        3 => written(start.saturating_sub(1)),
        _ => written(rng.between(start, end - 1)),
    }
}

/// A credit for an open debit, marked or not, where there is one.
fn crediting_line(rng: &mut Rng, world: &World) -> Vec<u8> {
    if world.debits.is_empty() || rng.once_in(10) {
        let moment = any_moment(rng);
        let passage = any_passage(rng, world.sender(), moment);
        return line(rng, b"R2", &passage);
    }
    let debit: &Vec<u8> = rng.pick(&world.debits);
    let passage = passage_of(debit);
    line(rng, b"R2", &passage)
}

fn passage_of(line: &[u8]) -> Passage {
    Passage {
        pan: body::PAN.of(line).to_vec(),
        moment: body::EXIT_MOMENT.of(line).to_vec(),
        actor: body::EXIT_ACTOR.of(line).to_vec(),
        station_and_lane: body::STATION_AND_LANE.of(line).to_vec(),
        detected: body::DETECTED.of(line).to_vec(),
        amount: amount_of(line),
    }
}

/// Makes L1 to L5 apply.
fn spoil(rng: &mut Rng, number: u64, line: &mut [u8]) {
    match number {
        1 => spoil_type(rng, line),
        2 => spoil_form(rng, line),
        3 => spoil_actor(rng, line),
        4 => spoil_vehicle(rng, line),
        _ => spoil_plate(rng, line),
    }
}

fn spoil_type(rng: &mut Rng, line: &mut [u8]) {
    let kinds: [&[u8; 2]; 14] = [
        b"R2", b"C1", b"D4", b"C2", b"D2", b"C5", b"C7", b"R1", b"R3", b"c1", b"  ", b"C9", b"C0",
        b"X1",
    ];
    body::TYPE.put(line, *rng.pick(&kinds));
}

fn spoil_form(rng: &mut Rng, line: &mut [u8]) {
    let numeric = [
        body::STATION,
        body::LANE,
        body::COUNTER,
        body::FEE_WITHOUT_VAT,
    ];
    if rng.once_in(2) {
        body::EXIT_MOMENT.put(line, &unreal_moment(rng));
    } else {
        let columns = *rng.pick(&numeric);
        line[columns.offset() + rng.below(columns.width())] = *rng.pick(b"/: -A\x00\xFF");
    }
}

fn spoil_actor(rng: &mut Rng, line: &mut [u8]) {
    if rng.once_in(2) {
        body::EXIT_ACTOR.put(line, &actor(rng));
    } else {
        change_one(rng, &[body::EXIT_ACTOR], line);
    }
}

fn spoil_vehicle(rng: &mut Rng, line: &mut [u8]) {
    let fuels: [&[u8; 3]; 10] = [
        b"00N", b"07N", b"08Y", b"16N", b"19Y", b"23N", b"01X", b"02n", b" 1N", b"05 ",
    ];
    let emissions: [&[u8; 2]; 6] = [b"08", b"14", b"16", b" 5", b"0A", b"50"];
    let classes: [&[u8; 2]; 9] = [
        b"00", b"03", b"11", b"13", b"21", b"33", b"42", b"72", b"  ",
    ];
    match rng.below(3) {
        0 => body::FUEL.put(line, *rng.pick(&fuels)),
        1 => body::EMISSION.put(line, *rng.pick(&emissions)),
        _ => body::TARIFF_CLASS.put(line, *rng.pick(&classes)),
    }
}

fn spoil_plate(rng: &mut Rng, line: &mut [u8]) {
    let declared = (body::DECLARED_PLATE, body::DECLARED_NATION);
    let detected = (body::DETECTED_PLATE, body::DETECTED_NATION);
    let (plate, nation) = *rng.pick(&[declared, detected]);
    let filled = filled_plate(rng);
    let mut text = filled[..10].to_vec();
    let mut of = filled[10..].to_vec();
    match rng.below(6) {
        0 => text[rng.below(10)] = *rng.pick(b"\xC5\xE5-\x00.\xFF_"),
        1 => text[..3].copy_from_slice(b"A B"),
        2 => text.copy_from_slice(b"         1"),
        3 => {
            of = rng
                .pick(&[b"no", b"No", b"N ", b" N", b"N1", b"  "])
                .to_vec()
        }
        4 => text.fill(b' '),
        _ => {
            text.fill(b' ');
            of = b" \x00".to_vec();
        }
    }
    plate.put(line, &text);
    nation.put(line, &of);
}

/// A copy of an earlier line, at times with one compared column changed.
fn repeat_earlier(rng: &mut Rng, world: &World, line: &mut Vec<u8>) {
    if world.lines.is_empty() {
        return;
    }
    line.clone_from(rng.pick(&world.lines));
    if rng.once_in(2) {
        vary_the_rest(rng, line);
    }
    if rng.once_in(4) {
        change_one(rng, &body::REPEATED, line);
    }
}

/// Takes the cover away: another PAN, another plate or nation, a blank plate.
fn uncover(rng: &mut Rng, line: &mut [u8]) {
    match rng.below(5) {
        0 => body::PAN.put(line, &pan(rng)),
        1 => change_one(rng, &[body::PAN], line),
        2 => body::PAN.put(line, b" 957800000000000001"),
        3 => {
            body::PAN.put(line, &blank_pan());
            body::DETECTED.put(line, &filled_plate(rng));
        }
        _ => {
            body::PAN.put(line, &blank_pan());
            body::DETECTED.put(line, b"            ");
        }
    }
}

/// Changes one byte of one of the columns, to a digit or capital.
pub fn change_one(rng: &mut Rng, choices: &[Columns], line: &mut [u8]) {
    let columns = *rng.pick(choices);
    let place = columns.offset() + rng.below(columns.width());
    line[place] = match line[place] {
        b'0' => b'1',
        b'9' => b'8',
        byte if byte.is_ascii_digit() => byte + 1,
        b'A' => b'B',
        byte if byte.is_ascii_uppercase() => byte - 1,
        _ => b'7',
    };
}
