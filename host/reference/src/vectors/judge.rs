//! Vectors for whole calls: `C` with name, reception moment, card, received
//! names, a part as long as there are records, book, debits, marks, TIF, station
//! table and output. The answer is the call's number or the printed values and the length
//! of the TIC, then ` /` and the marks afterwards, ` /` and number, word, amount
//! and fee of each line, ` /` and the output afterwards, line feeds and all.

use super::Case;
use crate::acceptance::Side;
use crate::call::{judge, Answer, Call, Record};
use crate::generator::damage::{all_damages, Damage, Draft, Gives};
use crate::generator::rng::Rng;
use crate::generator::room::{lend_enough, needed};
use crate::generator::world::{Size, World};

/// What the program has room for, in the order of the parts.
const PART_LIMITS: [usize; 11] = [
    80, 40, 40, 400, 20, 4_096, 16_200, 20, 16_500, 3_000, 16_600,
];
const ATTEMPTS: usize = 100;

/// Sound calls with a station table and without, every damage, and room that is
/// just too little or just enough.
pub fn cases() -> Vec<Case> {
    let mut rng = Rng::new(0, 108);
    let mut cases = Vec::new();
    for side in [Side::Debit, Side::Credit] {
        cases.extend((0..9).map(|_| sound_case(&mut rng, side, Draft::new)));
        cases.extend((0..9).map(|_| sound_case(&mut rng, side, Draft::with_table)));
        cases.extend((0..3).flat_map(|_| room_cases(&mut rng, side)));
    }
    cases.extend(all_damages().filter_map(|damage| damaged_case(&mut rng, damage)));
    rng.shuffle(&mut cases);
    cases
}

/// Draws until there is a case, which a few damages never give.
fn drawn<T>(mut draw: impl FnMut() -> Option<T>) -> Option<T> {
    (0..ATTEMPTS).find_map(|_| draw())
}

fn sound_case(rng: &mut Rng, side: Side, draft: fn(&mut Rng, &World) -> Draft) -> Case {
    let sizes = [0, 1, 2, 4, 7];
    let found = drawn(|| {
        let lines = *rng.pick(&sizes);
        let world = small_world(rng, side, lines);
        let mut call = draft(rng, &world).call;
        lend_enough(rng, &mut call);
        case(rng, &call)
    });
    found.expect("most calls are fit for a case")
}

fn small_world(rng: &mut Rng, side: Side, lines: usize) -> World {
    let size = Size {
        agreements: *rng.pick(&[1, 2, 3]),
        periods: *rng.pick(&[1, 2, 3]),
        debits: *rng.pick(&[0, 1, 1, 2]),
        lines,
    };
    World::new(rng, size, side)
}

/// The damage done to a small call; none where its parts never fit.
fn damaged_case(rng: &mut Rng, damage: &Damage) -> Option<Case> {
    drawn(|| {
        let side = *rng.pick(&[Side::Debit, Side::Credit]);
        let lines = *rng.pick(&[1, 1, 2]);
        let world = small_world(rng, side, lines);
        let mut draft = match damage.gives {
            Gives::Refusal(8) => Draft::with_table(rng, &world),
            _ => Draft::new(rng, &world),
        };
        if !(damage.apply)(rng, &mut draft) {
            return None;
        }
        lend_enough(rng, &mut draft.call);
        case(rng, &draft.call)
    })
}

/// A call with listed lines, lent exactly enough, then a byte and then a record too few.
fn room_cases(rng: &mut Rng, side: Side) -> Vec<Case> {
    let found = drawn(|| {
        let mut call = small_world(rng, side, 2).call(rng);
        let needed = needed(&mut call)?;
        let rooms = [(0, 0), (1, 0), (0, 1)];
        let cases = rooms.map(|(bytes, records)| {
            call.output_length = needed.output - bytes;
            call.records_lent = needed.records - records;
            case(rng, &call)
        });
        cases.into_iter().collect()
    });
    found.expect("most calls are fit for cases")
}

/// The case of a call; none where a part is too long or the answer is no text.
fn case(rng: &mut Rng, call: &Call) -> Option<Case> {
    let output = vec![*rng.pick(b"#.x~"); call.output_length];
    let records = vec![b'R'; call.records_lent];
    let parts: [&[u8]; 11] = [
        &call.name,
        &call.reception,
        &call.card,
        &call.received_names,
        &records,
        &call.book,
        &call.debits,
        &call.marks,
        &call.tif,
        &call.tst,
        &output,
    ];
    let fits = |(part, limit): (&&[u8], usize)| part.len() <= limit;
    if !parts.iter().zip(PART_LIMITS).all(fits) {
        return None;
    }
    let answer = answer(call, output.clone())?;
    Some(Case::new(b'C', &parts, answer))
}

fn answer(call: &Call, output: Vec<u8>) -> Option<String> {
    let (told, marks, records, output) = match judge(call) {
        Err(fault) => {
            let told = format!("E{}", fault.number());
            (told, call.marks.clone(), String::new(), output)
        }
        Ok(answer) => {
            let told = format!("{} {}", answer.summary.printed(), answer.tic.len());
            let records = answer.records.iter().map(record_text).collect();
            let written = written_over(output, &answer);
            (told, answer.marks, records, written)
        }
    };
    let marks: String = marks.iter().map(u8::to_string).collect();
    let output = String::from_utf8(output).ok()?;
    Some(format!("{told} /{marks} /{records} /{output}"))
}

fn record_text(record: &Record) -> String {
    let (number, word) = (record.number, record.verdict.word());
    format!(" {number} {word} {} {}", record.amount.0, record.fee.0)
}

/// The TIC in front of the output, the rest as it was.
fn written_over(mut output: Vec<u8>, answer: &Answer) -> Vec<u8> {
    output[..answer.tic.len()].copy_from_slice(&answer.tic);
    output
}
