//! Vectors for judged files: `J` with name, book, debits, marks and TIF. The
//! answer is the words, then `/` and the marks afterwards, then accepted and
//! refused: the lines of each and the sums of their amounts.

use super::Case;
use crate::acceptance::Side;
use crate::book::Book;
use crate::call::Call;
use crate::debits::Debits;
use crate::generator::rng::Rng;
use crate::generator::world::{Size, World};
use crate::tif_writer::amount_of;
use crate::verdict::Judging;

/// Files of both sides, in a fixed order.
pub fn cases() -> Vec<Case> {
    let mut rng = Rng::new(0, 107);
    (0..60).map(|_| case(&mut rng)).collect()
}

fn case(rng: &mut Rng) -> Case {
    let side = *rng.pick(&[Side::Debit, Side::Credit]);
    let size = Size {
        agreements: *rng.pick(&[0, 1, 2, 3]),
        periods: *rng.pick(&[1, 2, 4]),
        debits: rng.below(9),
        lines: *rng.pick(&[0, 1, 3, 5, 8, 12]),
    };
    let world = World::new(rng, size, side);
    let call = world.call(rng);
    let parts: [&[u8]; 5] = [&call.name, &call.book, &call.debits, &call.marks, &call.tif];
    Case::new(b'J', &parts, answer(&world, &call))
}

fn answer(world: &World, call: &Call) -> String {
    let book = Book::read(&call.book).expect("a sound book");
    let debits = Debits::read(&call.debits, &call.marks).expect("sound debits");
    let mut judging = Judging::new(world.side, world.sender(), None, &book, debits);
    let words: Vec<u64> = world
        .lines
        .iter()
        .map(|line| judging.judge(line).word())
        .collect();
    let (accepted, accepted_amount) = tally(world, &words, false);
    let (refused, refused_amount) = tally(world, &words, true);
    let written: String = words.iter().map(|word| format!("{word} ")).collect();
    let marks: String = judging.marks().iter().map(u8::to_string).collect();
    format!("{written}/{marks} {accepted} {refused} {accepted_amount} {refused_amount}")
}

/// How many lines were refused, or accepted, and the sum of their amounts.
fn tally(world: &World, words: &[u64], refused: bool) -> (usize, u64) {
    let amounts: Vec<u64> = world
        .lines
        .iter()
        .zip(words)
        .filter(|(_, word)| (*word % 256 != 0) == refused)
        .map(|(line, _)| amount_of(line))
        .collect();
    (amounts.len(), amounts.iter().sum())
}
