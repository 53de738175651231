//! Vectors for open debits: `F` with debits and marks, `C` with a credit that
//! takes a debit of the last sound ones, `M` for the marks as they stand.

use super::Case;
use crate::acceptance::Side;
use crate::debits::Debits;
use crate::generator::damage::{all_damages, Damage, Draft, Gives};
use crate::generator::rng::Rng;
use crate::generator::world::{Size, World};

/// Groups of sound debits with credits, and damaged debits; in a fixed order.
pub fn cases() -> Vec<Case> {
    let mut rng = Rng::new(0, 103);
    let mut groups: Vec<Vec<Case>> = (0..60).map(|_| credit_group(&mut rng)).collect();
    groups.push(equal_credits(&mut rng, [0, 0]));
    groups.push(equal_credits(&mut rng, [1, 0]));
    for damage in all_damages().filter(|damage| damage.gives == Gives::Refusal(6)) {
        groups.push(damaged_group(&mut rng, damage));
    }
    rng.shuffle(&mut groups);
    groups.concat()
}

fn form_case(debits: &[u8], marks: &[u8]) -> Case {
    let sound = u8::from(Debits::read(debits, marks).is_some());
    Case::new(b'F', &[debits, marks], sound.to_string())
}

fn credit_case(debits: &mut Debits, credit: &[u8]) -> Case {
    let taken = debits.take(credit).unwrap_or(0);
    Case::new(b'C', &[credit], taken.to_string())
}

fn marks_case(debits: &Debits) -> Case {
    let marks = debits.marks().iter().map(u8::to_string).collect();
    Case::new(b'M', &[], marks)
}

fn world(rng: &mut Rng, debits: usize, credits: usize) -> World {
    let size = Size {
        agreements: 1,
        periods: 1,
        debits,
        lines: credits,
    };
    World::new(rng, size, Side::Credit)
}

/// The debits, each credit in turn, and the marks now and then.
fn cases_of(debits: &[Vec<u8>], marks: &[u8], credits: &[Vec<u8>]) -> Vec<Case> {
    let debits = debits.concat();
    let mut open = Debits::read(&debits, marks).expect("sound debits");
    let mut cases = vec![form_case(&debits, marks)];
    for (index, credit) in credits.iter().enumerate() {
        cases.push(credit_case(&mut open, credit));
        if index % 3 == 2 {
            cases.push(marks_case(&open));
        }
    }
    cases.push(marks_case(&open));
    cases
}

fn credit_group(rng: &mut Rng) -> Vec<Case> {
    let debits = *rng.pick(&[0, 1, 2, 3, 4, 6]);
    let world = world(rng, debits, 7);
    cases_of(&world.debits, &world.marks, &world.lines)
}

/// Two equal debits and three equal credits.
fn equal_credits(rng: &mut Rng, marks: [u8; 2]) -> Vec<Case> {
    let debit = world(rng, 1, 0).debits[0].clone();
    let credits = vec![debit.clone(); 3];
    cases_of(&[debit.clone(), debit], &marks, &credits)
}

/// A sound list, then the same damaged.
fn damaged_group(rng: &mut Rng, damage: &Damage) -> Vec<Case> {
    let mut cases = Vec::new();
    while cases.len() < 12 {
        let world = world(rng, 2, 0);
        let mut draft = Draft::new(rng, &world);
        if (damage.apply)(rng, &mut draft) {
            cases.push(form_case(&world.debits.concat(), &world.marks));
            cases.push(form_case(&draft.call.debits, &draft.call.marks));
        }
    }
    cases
}
