//! Sound worlds: everything a call is lent, in form, with lines of every verdict.

use super::book_model::{sound_book, BookModel};
use super::clock::any_moment;
use super::flaws::{credit_line, debit_line};
use super::passage::{actor, any_passage, debit_type, line, ACTOR_CHARACTERS};
use super::rng::Rng;
use crate::acceptance::Side;
use crate::call::Call;
use crate::columns::body;
use crate::moment::month_length;
use crate::text::{digits_value, padded};
use crate::tif_writer::{write_tif, HeaderValues};

/// What a call is lent, as values. Its TIF is made of the lines.
#[derive(Clone, Debug)]
pub struct World {
    pub name: Vec<u8>,
    pub reception: Vec<u8>,
    pub card: Vec<u8>,
    pub received_names: Vec<Vec<u8>>,
    pub book: BookModel,
    pub debits: Vec<Vec<u8>>,
    pub marks: Vec<u8>,
    pub side: Side,
    pub lines: Vec<Vec<u8>>,
}

/// How large a world is to be.
#[derive(Clone, Copy, Debug)]
pub struct Size {
    pub agreements: usize,
    pub periods: usize,
    pub debits: usize,
    pub lines: usize,
}

impl Size {
    /// Mostly small: up to 12 lines.
    pub fn small(rng: &mut Rng) -> Size {
        Size {
            agreements: *rng.pick(&[0, 1, 1, 2, 3, 4, 6]),
            periods: *rng.pick(&[1, 2, 3, 4, 4, 64]),
            debits: rng.below(9),
            lines: *rng.pick(&[0, 1, 2, 3, 3, 4, 5, 6, 8, 12]),
        }
    }
}

impl World {
    /// A sound world of this size and side.
    pub fn new(rng: &mut Rng, size: Size, side: Side) -> World {
        let name = file_name(rng);
        let mut world = World {
            reception: any_moment(rng),
            card: rng.text(ACTOR_CHARACTERS, 16),
            received_names: received_names(rng, &name),
            book: sound_book(rng, size.agreements, size.periods),
            debits: Vec::new(),
            marks: Vec::new(),
            side,
            lines: Vec::new(),
            name,
        };
        world.add_debits(rng, size.debits);
        world.add_lines(rng, size.lines);
        world
    }

    /// A small world of either side.
    pub fn small(rng: &mut Rng) -> World {
        let side = *rng.pick(&[Side::Debit, Side::Credit]);
        let size = Size::small(rng);
        World::new(rng, size, side)
    }

    pub fn sender(&self) -> &[u8] {
        &self.name[3..9]
    }

    fn add_debits(&mut self, rng: &mut Rng, count: usize) {
        for _ in 0..count {
            let repeated = !self.debits.is_empty() && rng.once_in(3);
            let debit = if repeated {
                rng.pick(&self.debits).clone()
            } else {
                open_debit(rng, self.sender())
            };
            self.debits.push(debit);
            self.marks.push(u8::from(rng.once_in(4)));
        }
    }

    fn add_lines(&mut self, rng: &mut Rng, count: usize) {
        for _ in 0..count {
            let line = match self.side {
                Side::Debit => debit_line(rng, self),
                Side::Credit => credit_line(rng, self),
            };
            self.lines.push(line);
        }
    }

    /// The TIF of the lines.
    pub fn tif(&self, rng: &mut Rng) -> Vec<u8> {
        let values = HeaderValues {
            name: &self.name,
            side: self.side,
            transactions: *rng.pick(&[0, self.lines.len()]),
            creation: &any_moment(rng),
        };
        write_tif(&values, &self.lines)
    }

    /// The call, with no room and no station table lent yet.
    pub fn call(&self, rng: &mut Rng) -> Call {
        Call {
            name: self.name.clone(),
            reception: self.reception.clone(),
            card: self.card.clone(),
            received_names: self.received_names.concat(),
            book: self.book.render(),
            debits: self.debits.concat(),
            marks: self.marks.clone(),
            tif: self.tif(rng),
            tst: Vec::new(),
            records_lent: 0,
            output_length: 0,
        }
    }
}

/// A name of the form of the paper.
pub fn file_name(rng: &mut Rng) -> Vec<u8> {
    let (year, month) = (rng.between(2020, 2030), rng.between(1, 12));
    let day = rng.between(1, month_length(year, month));
    let sequence = *rng.pick(&[1, 2, 17, 412, 5_000, 9_999]);
    let mut name = b"TIF".to_vec();
    name.extend(actor(rng));
    name.extend(format!("{year:04}{month:02}{day:02}{sequence:04}_").bytes());
    name.extend(actor(rng));
    name.extend(b"_130001");
    name
}

/// Names of other files, now and then bytes that are no name, or the name
/// across two slots: none of these is the name received before.
fn received_names(rng: &mut Rng, name: &[u8]) -> Vec<Vec<u8>> {
    let mut names: Vec<Vec<u8>> = (0..rng.below(4))
        .map(|_| match rng.below(5) {
            0 => rng.bytes(35),
            1 => file_name(rng),
            _ => other_sequence(rng, name),
        })
        .collect();
    if rng.once_in(6) {
        let mut across = rng.bytes(70);
        across[10..45].copy_from_slice(name);
        names.push(across);
    }
    names
}

fn other_sequence(rng: &mut Rng, name: &[u8]) -> Vec<u8> {
    let mut other = name.to_vec();
    let sequence = digits_value(&name[17..21]).expect("a sequence of digits");
    let moved = (sequence + rng.between(1, 9_997)) % 9_999 + 1;
    other[17..21].copy_from_slice(&padded(moved, 4));
    other
}

/// A debit as accepted earlier; now and then with a line feed inside or an
/// unreal moment, which E6 passes over.
fn open_debit(rng: &mut Rng, sender: &[u8]) -> Vec<u8> {
    let moment = any_moment(rng);
    let passage = any_passage(rng, sender, moment);
    let kind = debit_type(rng);
    let mut debit = line(rng, &kind, &passage);
    if rng.once_in(20) {
        debit[400] = b'\n';
    }
    if rng.once_in(20) {
        body::EXIT_MOMENT.put(&mut debit, b"20230229000000");
    }
    debit
}
