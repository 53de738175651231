//! Writing a TIC.

use reference::columns::{name, tic_footer, tic_header, tic_line};

/// What a TIC says besides its lines.
pub struct Head<'a> {
    pub name: &'a [u8],
    pub received: &'a [u8],
    pub side: u64,
    pub acceptance: u64,
    pub accepted: u64,
    pub rejected: u64,
    /// Accepted, then rejected.
    pub amounts: [u64; 2],
}

pub const SIDES: [&[u8; 3]; 3] = [b"000", b"CRE", b"DEB"];

/// The length of a TIC of so many lines.
pub fn tic_length(lines: usize) -> usize {
    tic_header::WIDTH + tic_line::WIDTH * lines + tic_footer::WIDTH
}

/// A part being written from its front.
struct Pen<'a> {
    out: &'a mut [u8],
    at: usize,
}

impl Pen<'_> {
    fn put(&mut self, text: &[u8]) {
        self.out[self.at..self.at + text.len()].copy_from_slice(text);
        self.at += text.len();
    }

    fn put_many(&mut self, byte: u8, count: usize) {
        self.out[self.at..self.at + count].fill(byte);
        self.at += count;
    }

    fn put_number(&mut self, mut number: u64, width: usize) {
        for place in self.out[self.at..self.at + width].iter_mut().rev() {
            *place = b'0' + (number % 10) as u8;
            number /= 10;
        }
        self.at += width;
    }
}

/// Writes a TIC over an output of its length.
pub fn write_tic<'l>(
    out: &mut [u8],
    head: &Head,
    listed: impl Iterator<Item = (&'l [u8], &'l [u8])>,
) {
    let mut pen = Pen { out, at: 0 };
    write_header(&mut pen, head);
    for (line, code) in listed {
        pen.put(&line[..809]);
        pen.put(code);
        pen.put(b"\n");
    }
    pen.put(b"2");
    for amount in head.amounts {
        pen.put_number(amount, 15);
    }
    pen.put_many(b'0', 96);
    pen.put(b"\n");
}

fn write_header(pen: &mut Pen, head: &Head) {
    pen.put(b"0");
    pen.put(name::RECEIVER.of(head.name));
    pen.put(name::SENDER.of(head.name));
    pen.put(b"TIC");
    pen.put(name::AFTER_KIND.of(head.name));
    pen.put(name::FILE_SEQUENCE.of(head.name));
    pen.put(head.received);
    pen.put(b"NOK");
    pen.put_number(head.accepted, 15);
    pen.put_number(head.rejected, 15);
    pen.put(SIDES[head.side as usize]);
    pen.put_number(head.accepted, 15);
    pen.put_number(head.rejected, 15);
    pen.put(b"130001      ");
    pen.put_many(b'0', 46);
    pen.put_number(head.acceptance, 2);
    pen.put(b"\n");
}
