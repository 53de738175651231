//! The same TICs through the owned type of `quindaf`.

use crate::owned::{owned_acceptance, owned_side};
use crate::state::{different, side_number};
use quindaf::{Gross, NoRoom, TicValues};
use reference::generator::tics::TicQuestion;
use reference::tic::Tic;
use reference::tic_reader::{read, rewrite};

/// The difference between the reference and the owned type.
pub fn owned_tic_difference(question: &TicQuestion) -> Option<String> {
    let owned = quindaf::Tic::read(question.tic.clone());
    match (read(&question.tic), owned) {
        (Err(fault), Err(found)) => {
            let expected = fault.number() as u32;
            different("owned TIC fault", &expected, &found.number())
        }
        (Ok(tic), Ok(owned)) => reading_difference(question, &tic, &owned),
        (expected, _) => Some(format!("owned TIC: expected to read {}", expected.is_ok())),
    }
}

fn reading_difference(question: &TicQuestion, tic: &Tic, owned: &quindaf::Tic) -> Option<String> {
    let listed = question.k.checked_sub(1).and_then(|k| tic.listed.get(k));
    let listed = listed.map(|listed| (listed.line, listed.code));
    let found = owned.listed(question.k);
    let found = found.map(|found| (found.line.as_slice(), found.code.as_slice()));
    let room = question.output_length;
    let length = rewrite(&question.tic, room).map(|text| text.len());
    let rewritten = owned.rewrite_into(&mut vec![0; room]);
    different("owned values", &owned_values(tic), &owned.values())
        .or_else(|| different("owned listed line", &listed, &found))
        .or_else(|| different("owned text", &question.tic, &owned.rewritten()))
        .or_else(|| different("owned room", &length.map_err(|_| NoRoom), &rewritten))
}

fn owned_values(tic: &Tic) -> TicValues {
    TicValues {
        acceptance: owned_acceptance(tic.acceptance.number()),
        side: owned_side(side_number(tic.side)),
        accepted: tic.accepted.0 as usize,
        rejected: tic.rejected().0 as usize,
        listed: tic.listed.len(),
        accepted_amount: Gross(tic.accepted_sum.0),
        rejected_amount: Gross(tic.rejected_sum().0),
    }
}
