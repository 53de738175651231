//! Vectors for the reader of TICs: `R` reads, `L` asks for a listed line, `W`
//! writes what was read into an output of a length.

use super::Case;
use crate::acceptance::side_text;
use crate::acceptance::Acceptance;
use crate::generator::damage_tic::{TicDamage, TIC_DAMAGES};
use crate::generator::rng::Rng;
use crate::generator::tics::{sound_tic, tic_of};
use crate::lines::TIC;
use crate::tic_reader::{listed_place, read, rewrite, RewriteFault, TicFault};

/// All cases, in a fixed mixed order.
pub fn cases() -> Vec<Case> {
    let mut rng = Rng::new(0, 104);
    let mut cases = Vec::new();
    for tic in sound_tics(&mut rng) {
        cases.extend(questions(&mut rng, &tic));
    }
    for damage in TIC_DAMAGES {
        for tic in damaged(&mut rng, damage) {
            cases.push(read_case(&tic));
            let further = questions(&mut rng, &tic);
            cases.extend(further.into_iter().skip(1).filter(|_| rng.once_in(5)));
        }
    }
    rng.shuffle(&mut cases);
    cases
}

fn fault_text(fault: TicFault) -> String {
    format!("T{}", fault.number())
}

fn read_case(tic: &[u8]) -> Case {
    let answer = read(tic).map_or_else(fault_text, |tic| {
        format!(
            "{} {} {} {} {} {} {}",
            tic.acceptance.code(),
            side_text(tic.side),
            tic.accepted.0,
            tic.rejected().0,
            tic.listed.len(),
            tic.accepted_sum.0,
            tic.rejected_sum().0
        )
    });
    Case::new(b'R', &[tic], answer)
}

fn listed_case(tic: &[u8], k: u32) -> Case {
    let answer = listed_place(tic, k as usize)
        .map_or_else(fault_text, |place| format!("{} {}", place.line, place.code));
    Case::new(b'L', &[tic, &k.to_be_bytes()], answer)
}

fn write_case(tic: &[u8], output_length: u32) -> Case {
    let answer = match rewrite(tic, output_length as usize) {
        Ok(text) => text.len().to_string(),
        Err(RewriteFault::Unread(fault)) => fault_text(fault),
        Err(RewriteFault::OutputTooShort) => "E7".to_string(),
    };
    Case::new(b'W', &[tic, &output_length.to_be_bytes()], answer)
}

/// Read, a listed line within and without, written into enough and too little.
fn questions(rng: &mut Rng, tic: &[u8]) -> Vec<Case> {
    let listed = TIC.lines_in(tic.len()).unwrap_or(0) as u32;
    let length = tic.len() as u32;
    let within = rng.between(1, u64::from(listed.max(1))) as u32;
    let without = *rng.pick(&[0, listed + 1, listed + 2, 10_000, u32::MAX]);
    let short = *rng.pick(&[0, 323, length.saturating_sub(1), length.saturating_sub(812)]);
    vec![
        read_case(tic),
        listed_case(tic, within),
        listed_case(tic, without),
        write_case(tic, *rng.pick(&[length, length, length + 1])),
        write_case(tic, short.min(length.saturating_sub(1))),
    ]
}

/// Answers to calls and free TICs of up to three lines, each acceptance among them.
fn sound_tics(rng: &mut Rng) -> Vec<Vec<u8>> {
    let mut tics: Vec<Vec<u8>> = Acceptance::ALL
        .iter()
        .flat_map(|&acceptance| {
            let listed = usize::from(acceptance == Acceptance::Partial);
            (0..4)
                .map(|_| tic_of(rng, acceptance, listed))
                .collect::<Vec<_>>()
        })
        .collect();
    while tics.len() < 85 {
        tics.push(small_sound_tic(rng));
    }
    tics
}

fn small_sound_tic(rng: &mut Rng) -> Vec<u8> {
    loop {
        let tic = sound_tic(rng);
        if tic.len() <= TIC.length(3) {
            return tic;
        }
    }
}

/// Some TICs with this damage.
fn damaged(rng: &mut Rng, damage: &TicDamage) -> Vec<Vec<u8>> {
    let mut tics = Vec::new();
    while tics.len() < 7 {
        let mut tic = small_sound_tic(rng);
        if (damage.apply)(rng, &mut tic) {
            tics.push(tic);
        }
    }
    tics
}
