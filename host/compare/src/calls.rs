//! One call, judged by the reference and by a subject.

use crate::owned::owned_difference;
use crate::rooms::with_other_rooms;
use crate::state::State;
use crate::subject::Subject;
use quindaf::lent::{Read, Written};
use reference::call::Call;
use reference::generator::generate;

/// A call that was answered differently.
#[derive(Clone, Debug)]
pub struct Found {
    pub call: Call,
    pub difference: String,
}

/// The difference on one call with the room it is lent. Where no station table is
/// lent, the function that takes none is tried as well as the one that takes it.
pub fn call_difference(subject: &Subject, call: &Call, salt: u8) -> Option<String> {
    let before = State::before(call, salt);
    let expected = before.clone().expected(call);
    let judge_with = |read: Read, written: Written| (subject.judge_with)(read, &call.tst, written);
    let found = before.clone().left_by(judge_with, call);
    expected.difference(&found).or_else(|| {
        if !call.tst.is_empty() {
            return None;
        }
        let found = before.left_by(subject.judge, call);
        let difference = expected.difference(&found)?;
        Some(format!("by the function without a table: {difference}"))
    })
}

/// Every so many seeds the call is tried with other rooms too.
const OTHER_ROOMS: u64 = 4;

/// The first difference on the call of a seed: with its own room, at times with
/// others, and through the owned types.
pub fn seed_difference(subject: &Subject, seed: u64) -> Option<Found> {
    let call = generate(seed);
    let salt = seed as u8;
    let mut tried = vec![call.clone()];
    if seed.is_multiple_of(OTHER_ROOMS) {
        tried.extend(with_other_rooms(&call));
    }
    let on_lent_memory = tried.into_iter().find_map(|call| {
        let difference = call_difference(subject, &call, salt)?;
        Some(Found { call, difference })
    });
    on_lent_memory.or_else(|| {
        let difference = owned_difference(&call)?;
        Some(Found { call, difference })
    })
}
