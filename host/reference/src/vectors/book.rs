//! Vectors for the agreement book: `B` with a book, `Q` with PAN, moment, plate
//! and nation of a passage, asked of the last book.

use super::Case;
use crate::acceptance::Side;
use crate::book::{Book, MOST_AGREEMENTS, MOST_BYTES};
use crate::columns::body;
use crate::generator::book_model::{sound_book, BookModel};
use crate::generator::damage::{all_damages, Draft, Gives};
use crate::generator::limits::book_of_bytes;
use crate::generator::rng::Rng;
use crate::generator::world::{Size, World};
use crate::moment::is_real_moment;

/// Groups of a sound book, questions to it, and damaged books; in a fixed order.
pub fn cases() -> Vec<Case> {
    let mut rng = Rng::new(0, 102);
    let mut groups: Vec<Vec<Case>> = (0..24).map(|_| asked_group(&mut rng)).collect();
    groups.extend(damaged_groups(&mut rng));
    groups.push(limit_group(&mut rng));
    rng.shuffle(&mut groups);
    groups.concat()
}

fn book_case(book: &[u8]) -> Case {
    let sound = u8::from(Book::read(book).is_some());
    Case::new(b'B', &[book], sound.to_string())
}

/// The question that a body line asks, if its moment is real.
fn question(book: &[u8], line: &[u8]) -> Option<Case> {
    let book = Book::read(book).expect("a sound book");
    let parts = [
        body::PAN,
        body::EXIT_MOMENT,
        body::DETECTED_PLATE,
        body::DETECTED_NATION,
    ]
    .map(|columns| columns.of(line));
    let [pan, moment, plate, nation] = parts;
    let answer = match book.cover(pan, moment, plate, nation) {
        Some(place) => format!("{} {}", place.agreement, place.period),
        None => "0 0".to_string(),
    };
    is_real_moment(moment).then(|| Case::new(b'Q', &parts, answer))
}

/// A world whose lines are DEB lines, at and around the periods of its book.
fn world(rng: &mut Rng, agreements: usize, periods: usize, lines: usize) -> World {
    let size = Size {
        agreements,
        periods,
        debits: 0,
        lines,
    };
    World::new(rng, size, Side::Debit)
}

fn questions(book: &[u8], lines: &[Vec<u8>]) -> Vec<Case> {
    lines
        .iter()
        .filter_map(|line| question(book, line))
        .collect()
}

/// A sound book and what is asked of it, also what another world asks.
fn asked_group(rng: &mut Rng) -> Vec<Case> {
    let agreements = *rng.pick(&[0, 1, 2, 3, 4, 5]);
    let periods = *rng.pick(&[1, 2, 3, 4]);
    let asking = world(rng, agreements, periods, 12);
    let stranger = world(rng, 1, 1, 2);
    let book = asking.book.render();
    let mut cases = vec![book_case(&book)];
    cases.extend(questions(&book, &asking.lines));
    cases.extend(questions(&book, &stranger.lines));
    cases
}

/// Some damaged books for each damage.
fn damaged_groups(rng: &mut Rng) -> Vec<Vec<Case>> {
    let mut groups = Vec::new();
    for damage in all_damages().filter(|damage| damage.gives == Gives::Refusal(5)) {
        let mut group = Vec::new();
        while group.len() < 3 {
            let world = world(rng, 2, 2, 0);
            let mut draft = Draft::new(rng, &world);
            if (damage.apply)(rng, &mut draft) {
                group.push(book_case(&draft.call.book));
            }
        }
        groups.push(group);
    }
    groups
}

/// 1,000 agreements and one more; 64 periods; one byte more than a book may have.
fn limit_group(rng: &mut Rng) -> Vec<Case> {
    let most = world(rng, MOST_AGREEMENTS, 1, 20);
    let book = most.book.render();
    let mut cases = vec![book_case(&book)];
    cases.extend(questions(&book, &most.lines));
    cases.push(book_case(&sound_book(rng, MOST_AGREEMENTS + 1, 1).render()));
    let long = long_book(rng);
    cases.push(book_case(&long.render()));
    cases.push(book_case(&book_of_bytes(rng, MOST_BYTES + 1).render()));
    cases
}

/// A book with an agreement of 64 periods.
fn long_book(rng: &mut Rng) -> BookModel {
    loop {
        let book = sound_book(rng, 1, 64);
        if book.agreements[0].periods.len() == 64 {
            return book;
        }
    }
}
