//! The same call with rooms of every kind.

use reference::call::Call;
use reference::generator::room::needed;

/// Much more output than the answer needs.
const FAR_MORE: usize = 5_000;

/// The call with exactly the room it needs, a byte and a record too few, next to
/// none, and far more; for a call refused before, with no room and with some.
pub fn with_other_rooms(call: &Call) -> Vec<Call> {
    let needs = needed(&mut call.clone());
    let (output, records) = needs.map_or((0, 0), |needs| (needs.output, needs.records));
    let rooms = [
        (output, records),
        (output.saturating_sub(1), records),
        (output, records.saturating_sub(1)),
        (output.saturating_sub(812), records + 1),
        (0, 0),
        (output + FAR_MORE, records + FAR_MORE),
    ];
    rooms
        .iter()
        .map(|&(output_length, records_lent)| Call {
            output_length,
            records_lent,
            ..call.clone()
        })
        .collect()
}
