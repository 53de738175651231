//! Generated calls and TICs: the same bytes for the same seed.
//!
//! A call begins as a sound world. About half of the calls are then lent a station
//! table, and about half are damaged, each damage in one way that the papers name.

pub mod book_model;
mod clock;
pub mod damage;
mod damage_book;
mod damage_call;
mod damage_debits;
pub mod damage_tic;
mod damage_tif;
mod damage_tst;
mod file_draft;
mod flaws;
pub mod limits;
mod passage;
pub mod rng;
pub mod room;
mod stations;
pub mod tally;
pub mod tics;
pub mod world;

use crate::call::Call;
use damage::{any_damage, Damage, Draft};
use limits::{at_limit, rare_limit};
use rng::Rng;
use room::{lend_enough, lend_too_little};
use world::World;

const CALLS: u64 = 1;
const TABLES: u64 = 7;

/// A generated call, with the names of the damages done to it.
#[derive(Clone, Debug)]
pub struct Generated {
    pub call: Call,
    pub damages: Vec<&'static str>,
}

/// The call of a seed.
pub fn generate(seed: u64) -> Call {
    generate_named(seed).call
}

/// The call of a seed as it is where no station table is lent, for a seed that is
/// at no limit; a job can say it.
pub fn generate_without_table(seed: u64) -> Call {
    generated(seed, Draft::new).call
}

/// The call of a seed, with the names of its damages.
pub fn generate_named(seed: u64) -> Generated {
    let lends_table = Rng::new(seed, TABLES).once_in(2);
    let draft = if lends_table {
        Draft::with_table
    } else {
        Draft::new
    };
    generated(seed, draft)
}

/// The call of a seed, drafted in this way unless it is at a limit.
fn generated(seed: u64, draft: fn(&mut Rng, &World) -> Draft) -> Generated {
    let mut rng = Rng::new(seed, CALLS);
    let mut draft = match rare_limit(seed) {
        Some(limit) => at_limit(&mut rng, limit),
        None => {
            let world = World::small(&mut rng);
            draft(&mut rng, &world)
        }
    };
    let mut damages = match rare_limit(seed) {
        Some(_) => Vec::new(),
        None => damage_draft(&mut rng, &mut draft),
    };
    let mut call = draft.call;
    if rng.percent(8) && lend_too_little(&mut rng, &mut call) {
        damages.push("too little room");
    } else {
        lend_enough(&mut rng, &mut call);
    }
    Generated { call, damages }
}

/// No damage, one, or two; the names of those done.
fn damage_draft(rng: &mut Rng, draft: &mut Draft) -> Vec<&'static str> {
    let count = *rng.pick(&[0, 0, 0, 0, 1, 1, 1, 1, 2]);
    let mut done: Vec<&Damage> = Vec::new();
    for _ in 0..count {
        let damage = any_damage(rng, &draft.call);
        let fits = done.iter().all(|before| damage.can_follow(before));
        if fits && (damage.apply)(rng, draft) {
            done.push(damage);
        }
    }
    done.iter().map(|damage| damage.what).collect()
}
