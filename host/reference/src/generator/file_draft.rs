//! A file of fixed widths on its way to be damaged, whichever file it is.

use super::damage::{replace_one, NOT_DIGITS};
use super::rng::Rng;
use crate::columns::Columns;
use crate::lines::Layout;
use crate::text::{digits_value, padded};

/// The bytes of a file, with the layout that they have before the damage.
pub struct FileDraft<'a> {
    pub bytes: &'a mut Vec<u8>,
    pub layout: Layout,
}

/// Header, a body line or footer of a file whose length is right.
#[derive(Clone, Copy)]
pub enum Part {
    Header,
    Line,
    Footer,
}

const PARTS: [Part; 3] = [Part::Header, Part::Line, Part::Footer];

impl FileDraft<'_> {
    /// The number of lines, while the length is still right.
    pub fn lines(&self) -> usize {
        let lines = self.layout.lines_in(self.bytes.len());
        lines.expect("a file whose length is right")
    }

    /// Where the footer begins.
    pub fn footer_place(&self) -> usize {
        self.bytes.len() - self.layout.footer
    }

    /// The bytes of a part, any line of the body for a line; nothing if there is none.
    fn part(&mut self, rng: &mut Rng, of: Part) -> Option<&mut [u8]> {
        let lines = self.lines();
        let place = match of {
            Part::Header => 0..self.layout.header,
            Part::Line if lines == 0 => return None,
            Part::Line => {
                let start = self.layout.place_of_line(1 + rng.below(lines));
                start..start + self.layout.line
            }
            Part::Footer => self.footer_place()..self.bytes.len(),
        };
        Some(&mut self.bytes[place])
    }

    /// Changes some columns of a part.
    pub fn change(
        &mut self,
        rng: &mut Rng,
        of: Part,
        columns: Columns,
        change: impl Fn(&mut Rng, &mut [u8]),
    ) -> bool {
        let choice = self.part(rng, of).map(|text| {
            let mut field = columns.of(text).to_vec();
            change(rng, &mut field);
            columns.put(text, &field);
        });
        choice.is_some()
    }

    /// Replaces a digit field's byte by one that is no digit.
    pub fn break_digits(&mut self, rng: &mut Rng, of: Part, columns: Columns) -> bool {
        self.change(rng, of, columns, |rng, field| {
            if rng.once_in(3) {
                field[0] = b' ';
            } else {
                replace_one(rng, field, NOT_DIGITS);
            }
        })
    }

    /// Adds to a number of fifteen digits, staying within its width.
    pub fn add_to(&mut self, place: usize, by: i64) {
        let field = &mut self.bytes[place..place + 15];
        let value = digits_value(field).expect("a field of digits") as i64;
        let moved = (value + by).rem_euclid(1_000_000_000_000_000) as u64;
        field.copy_from_slice(&padded(moved, 15));
    }

    pub fn put_byte_in(&mut self, rng: &mut Rng) -> bool {
        let at = rng.below(self.bytes.len());
        self.bytes.insert(at, *rng.pick(b"0 \r\n"));
        true
    }

    pub fn take_byte_out(&mut self, rng: &mut Rng) -> bool {
        let at = rng.below(self.bytes.len());
        self.bytes.remove(at);
        true
    }

    /// Spoils header, line or footer; not if a line is chosen and there is none.
    fn spoil_any_part(&mut self, rng: &mut Rng, spoil: fn(&mut Rng, &mut [u8])) -> bool {
        let chosen = *rng.pick(&PARTS);
        let choice = self.part(rng, chosen).map(|text| spoil(rng, text));
        choice.is_some()
    }

    pub fn lose_line_feed(&mut self, rng: &mut Rng) -> bool {
        self.spoil_any_part(rng, |rng, text| {
            *text.last_mut().expect("a part is not empty") = *rng.pick(b"0 \r\x0B");
        })
    }

    pub fn put_line_feed_elsewhere(&mut self, rng: &mut Rng) -> bool {
        self.spoil_any_part(rng, |rng, text| {
            let inside = text.len() - 1;
            text[rng.below(inside)] = b'\n';
        })
    }

    pub fn move_line_feed(&mut self, rng: &mut Rng) -> bool {
        self.spoil_any_part(rng, |_, text| {
            let last = text.len() - 1;
            text.swap(last, last - 1);
        })
    }

    /// Spoils column 1 of some part.
    pub fn spoil_register(&mut self, rng: &mut Rng) -> bool {
        let (chosen, wrong): (Part, &[u8]) = *rng.pick(&[
            (Part::Header, b"12 \x00".as_slice()),
            (Part::Line, b"02 \x01".as_slice()),
            (Part::Footer, b"013 ".as_slice()),
        ]);
        let choice = self
            .part(rng, chosen)
            .map(|text| text[0] = *rng.pick(wrong));
        choice.is_some()
    }
}
