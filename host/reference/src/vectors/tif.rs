//! Vectors for name and acceptance: `A` with name, received names and TIF.

use super::Case;
use crate::acceptance::side_text;
use crate::acceptance::Side;
use crate::call::Call;
use crate::columns::tif_header;
use crate::generator::damage::{all_damages, Damage, Draft, Gives};
use crate::generator::rng::Rng;
use crate::generator::world::{Size, World};
use crate::name::{are_received_names, FileName};
use crate::tif::{accept, side_of};

/// All cases, in a fixed mixed order.
pub fn cases() -> Vec<Case> {
    let mut rng = Rng::new(0, 101);
    let mut cases: Vec<Case> = (0..80).map(|_| case(&small_draft(&mut rng).call)).collect();
    for damage in all_damages() {
        cases.extend(damaged(&mut rng, damage));
    }
    cases.extend(cut_near_the_side(&mut rng));
    cases.extend(sides_among_line_feeds(&mut rng));
    rng.shuffle(&mut cases);
    cases
}

fn case(call: &Call) -> Case {
    let parts: [&[u8]; 3] = [&call.name, &call.received_names, &call.tif];
    Case::new(b'A', &parts, answer(call))
}

fn answer(call: &Call) -> String {
    let Some(name) = FileName::read(&call.name) else {
        return "E1".to_string();
    };
    if !are_received_names(&call.received_names) {
        return "E4".to_string();
    }
    let side = side_text(side_of(&call.tif));
    match accept(name, &call.received_names, &call.tif) {
        Ok(tif) => format!("00 {} {} {side}", tif.lines.len(), tif.total.0),
        Err(acceptance) => format!("{} {side}", acceptance.code()),
    }
}

/// A sound draft of up to three lines.
fn small_draft(rng: &mut Rng) -> Draft {
    let size = Size {
        agreements: 1,
        periods: 1,
        debits: 1,
        lines: *rng.pick(&[0, 1, 1, 2, 3]),
    };
    let side = *rng.pick(&[Side::Debit, Side::Credit]);
    let world = World::new(rng, size, side);
    Draft::new(rng, &world)
}

/// Some cases with this damage, if it touches the name, the names or the TIF.
fn damaged(rng: &mut Rng, damage: &Damage) -> Vec<Case> {
    let times = match damage.gives {
        Gives::Refusal(1) | Gives::Refusal(4) => 5,
        Gives::Acceptance(_) => 12,
        Gives::Refusal(_) => 0,
    };
    let mut cases = Vec::new();
    while cases.len() < times {
        let mut draft = small_draft(rng);
        if (damage.apply)(rng, &mut draft) {
            cases.push(case(&draft.call));
        }
    }
    cases
}

/// Files that end before, within and after columns 74-76.
fn cut_near_the_side(rng: &mut Rng) -> Vec<Case> {
    (70..=80)
        .map(|length| {
            let mut call = small_draft(rng).call;
            call.tif.truncate(length);
            case(&call)
        })
        .collect()
}

/// Line feeds next to and within columns 74-76.
fn sides_among_line_feeds(rng: &mut Rng) -> Vec<Case> {
    let side = tif_header::SIDE;
    (side.first - 1..=side.last + 1)
        .map(|column| {
            let mut call = small_draft(rng).call;
            call.tif[column - 1] = b'\n';
            case(&call)
        })
        .collect()
}
