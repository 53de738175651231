//! The TIC as a text of its values (01, "The TIC"; 004, 3.1 to 3.3).

use crate::acceptance::{side_text, Acceptance, Side};
use crate::columns::{body, name, tic_footer, tic_header as header, tic_line};
use crate::name::VERSION;
use crate::numbers::{Count, Gross};
use crate::text::padded;

/// What a TIC says; the rest of its text follows from this.
#[derive(Clone, Debug, PartialEq, Eq)]
pub struct Tic<'a> {
    /// The TIF's file sequence, 21 characters.
    pub tif_sequence: &'a [u8],
    /// The TIF's receiver.
    pub tif_receiver: &'a [u8],
    pub reception: &'a [u8],
    pub acceptance: Acceptance,
    pub side: Option<Side>,
    pub accepted: Count,
    pub accepted_sum: Gross,
    pub listed: Vec<Listed<'a>>,
}

/// A refused line as the TIC lists it: columns 1 to 809, and its code.
#[derive(Clone, Copy, Debug, PartialEq, Eq)]
pub struct Listed<'a> {
    pub line: &'a [u8],
    pub code: &'a [u8],
}

impl<'a> Listed<'a> {
    /// A line of the TIF with the code of its verdict.
    pub fn new(tif_line: &'a [u8], code: &'a [u8]) -> Listed<'a> {
        Listed {
            line: tic_line::LISTED.of(tif_line),
            code,
        }
    }

    /// The amount with VAT; the columns are those of the TIF line.
    pub fn amount(&self) -> Option<Gross> {
        Gross::read(body::AMOUNT_WITH_VAT.of(self.line))
    }
}

impl Tic<'_> {
    pub fn rejected(&self) -> Count {
        Count::of(self.listed.len())
    }

    /// The sum over the listed lines, whose amounts are digits.
    pub fn rejected_sum(&self) -> Gross {
        self.listed.iter().filter_map(Listed::amount).sum()
    }

    /// The whole text.
    pub fn render(&self) -> Vec<u8> {
        let mut text = self.render_header();
        for listed in &self.listed {
            text.extend(render_line(listed));
        }
        text.extend(self.render_footer());
        text
    }

    fn render_header(&self) -> Vec<u8> {
        let accepted = padded(self.accepted.0, header::ACCEPTED.width());
        let rejected = padded(self.rejected().0, header::REJECTED.width());
        let acceptance = self.acceptance.code();
        let pieces: [&[u8]; 17] = [
            b"0",
            self.tif_receiver,
            name::SENDER.of(self.tif_sequence),
            b"TIC",
            name::AFTER_KIND.of(self.tif_sequence),
            self.tif_sequence,
            self.reception,
            b"NOK",
            &accepted,
            &rejected,
            side_text(self.side).as_bytes(),
            &accepted,
            &rejected,
            VERSION,
            &[b' '; header::TIC_NUMBER.width()],
            &[b'0'; header::FILLER.width()],
            acceptance.as_bytes(),
        ];
        ended(pieces.concat(), header::WIDTH)
    }

    fn render_footer(&self) -> Vec<u8> {
        let accepted = padded(self.accepted_sum.0, tic_footer::ACCEPTED_SUM.width());
        let rejected = padded(self.rejected_sum().0, tic_footer::REJECTED_SUM.width());
        let filler = [b'0'; tic_footer::FILLER.width()];
        let pieces: [&[u8]; 4] = [b"2", &accepted, &rejected, &filler];
        ended(pieces.concat(), tic_footer::WIDTH)
    }
}

fn render_line(listed: &Listed) -> Vec<u8> {
    let pieces: [&[u8]; 3] = [b"1", tic_line::COPY.of(listed.line), listed.code];
    ended(pieces.concat(), tic_line::WIDTH)
}

/// The text with its line feed, which makes up the width of the part.
fn ended(mut text: Vec<u8>, width: usize) -> Vec<u8> {
    text.push(b'\n');
    assert_eq!(text.len(), width, "a part of a TIC has its width");
    text
}
