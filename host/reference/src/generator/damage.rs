//! Damages: each spoils a sound draft in one way and says what that gives.

use super::book_model::BookModel;
use super::damage_book::BOOK_DAMAGES;
use super::damage_call::CALL_DAMAGES;
use super::damage_debits::DEBITS_DAMAGES;
use super::damage_tif::TIF_DAMAGES;
use super::damage_tst::TST_DAMAGES;
use super::rng::Rng;
use super::stations::lend_table;
use super::world::World;
use crate::call::Call;

/// What a damage leads to when it stands alone.
#[derive(Clone, Copy, Debug, PartialEq, Eq)]
pub enum Gives {
    /// A call number, E1 to E6 or E8.
    Refusal(usize),
    /// A file acceptance, 02 to 05.
    Acceptance(u64),
}

/// A call on its way to be damaged, with its book still as a value.
#[derive(Clone, Debug)]
pub struct Draft {
    pub call: Call,
    pub book: BookModel,
}

/// One way to spoil a draft; it answers whether there was something to spoil.
#[derive(Clone, Copy)]
pub struct Damage {
    pub what: &'static str,
    pub gives: Gives,
    pub apply: fn(&mut Rng, &mut Draft) -> bool,
}

impl Damage {
    /// Whether it can be done to a draft that has this damage: each counts on
    /// the parts it spoils being whole.
    pub fn can_follow(&self, before: &Damage) -> bool {
        match (before.gives, self.gives) {
            (Gives::Refusal(one), Gives::Refusal(other)) => one != other,
            (Gives::Acceptance(_), Gives::Acceptance(_)) => false,
            _ => true,
        }
    }
}

impl Draft {
    pub fn new(rng: &mut Rng, world: &World) -> Draft {
        Draft {
            call: world.call(rng),
            book: world.book.clone(),
        }
    }

    /// The same with a station table made for the world's lines.
    pub fn with_table(rng: &mut Rng, world: &World) -> Draft {
        let mut draft = Draft::new(rng, world);
        lend_table(rng, &mut draft.call, &world.lines);
        draft
    }
}

/// Every damage there is; those that give E8 need a station table.
pub fn all_damages() -> impl Iterator<Item = &'static Damage> {
    CALL_DAMAGES
        .iter()
        .chain(BOOK_DAMAGES)
        .chain(DEBITS_DAMAGES)
        .chain(TIF_DAMAGES)
        .chain(TST_DAMAGES)
}

/// How often each result is aimed at, in parts.
const AIMS: [(Gives, usize); 11] = [
    (Gives::Refusal(1), 8),
    (Gives::Refusal(2), 7),
    (Gives::Refusal(3), 5),
    (Gives::Refusal(4), 4),
    (Gives::Refusal(5), 22),
    (Gives::Refusal(6), 12),
    (Gives::Acceptance(2), 6),
    (Gives::Acceptance(3), 6),
    (Gives::Acceptance(4), 6),
    (Gives::Acceptance(5), 24),
    STATIONS_AIM,
];

/// Aimed at only where a table is lent, so it stands last.
const STATIONS_AIM: (Gives, usize) = (Gives::Refusal(8), 24);

/// A damage to such a call, aimed at one result and then any of those that give it.
pub fn any_damage(rng: &mut Rng, call: &Call) -> &'static Damage {
    let aims = if call.tst.is_empty() {
        &AIMS[..AIMS.len() - 1]
    } else {
        &AIMS
    };
    let aim = any_aim(rng, aims);
    let fitting: Vec<&Damage> = all_damages().filter(|damage| damage.gives == aim).collect();
    let chosen = rng.below(fitting.len());
    fitting[chosen]
}

fn any_aim(rng: &mut Rng, aims: &[(Gives, usize)]) -> Gives {
    let parts = aims.iter().map(|(_, part)| part).sum();
    let mut left = rng.below(parts);
    for &(gives, part) in aims {
        if left < part {
            return gives;
        }
        left -= part;
    }
    unreachable!("the parts add up")
}

/// Replaces one byte of the text by one of the strangers.
pub fn replace_one(rng: &mut Rng, text: &mut [u8], strangers: &[u8]) {
    let place = rng.below(text.len());
    text[place] = *rng.pick(strangers);
}

/// Bytes that are no digit, those beside the digits first.
pub const NOT_DIGITS: &[u8] = b"/: -A\x00\xFF";
/// Bytes that are neither digit nor capital.
pub const NOT_DIGIT_OR_CAPITAL: &[u8] = b"/:@[a \x00\xC4\xFF_";
