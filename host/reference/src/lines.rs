//! Files of a header, lines and a footer, all of fixed width and each ending
//! in a line feed.

use crate::columns::{
    body, tic_footer, tic_header, tic_line, tif_footer, tif_header, tst_footer, tst_header,
    tst_line, Columns,
};
use crate::text::LINE_FEED;

/// The most lines a file may have.
pub const MOST_LINES: usize = 9_999;

/// The three widths of such a file.
#[derive(Clone, Copy, Debug, PartialEq, Eq)]
pub struct Layout {
    pub header: usize,
    pub line: usize,
    pub footer: usize,
}

pub const TIF: Layout = Layout {
    header: tif_header::WIDTH,
    line: body::WIDTH,
    footer: tif_footer::WIDTH,
};

pub const TIC: Layout = Layout {
    header: tic_header::WIDTH,
    line: tic_line::WIDTH,
    footer: tic_footer::WIDTH,
};

pub const TST: Layout = Layout {
    header: tst_header::WIDTH,
    line: tst_line::WIDTH,
    footer: tst_footer::WIDTH,
};

/// Column 1 of every part tells which part it is.
const REGISTER: Columns = Columns::new(1, 1);

/// A file cut into its parts.
#[derive(Clone, Debug, PartialEq, Eq)]
pub struct Parts<'a> {
    pub header: &'a [u8],
    pub lines: Vec<&'a [u8]>,
    pub footer: &'a [u8],
}

impl Parts<'_> {
    /// Column 1: "0" in the header, "1" in each line, "2" in the footer.
    pub fn registers_are_right(&self) -> bool {
        REGISTER.of(self.header) == b"0"
            && self.lines.iter().all(|line| REGISTER.of(line) == b"1")
            && REGISTER.of(self.footer) == b"2"
    }
}

impl Layout {
    /// The length of a file of so many lines.
    pub fn length(self, lines: usize) -> usize {
        self.header + self.line * lines + self.footer
    }

    /// The number of lines of a file of this length: 0 to 9,999, or none fits.
    pub fn lines_in(self, length: usize) -> Option<usize> {
        let body = length.checked_sub(self.header + self.footer)?;
        let lines = body / self.line;
        (body % self.line == 0 && lines <= MOST_LINES).then_some(lines)
    }

    /// The parts of a file whose length is right and whose line feeds stand at
    /// the end of each part and nowhere else.
    pub fn cut(self, file: &[u8]) -> Option<Parts<'_>> {
        let lines = self.lines_in(file.len())?;
        let (header, rest) = file.split_at(self.header);
        let (body, footer) = rest.split_at(self.line * lines);
        let lines: Vec<&[u8]> = body.chunks_exact(self.line).collect();
        let sound = ends_in_its_only_line_feed(header)
            && lines.iter().all(|line| ends_in_its_only_line_feed(line))
            && ends_in_its_only_line_feed(footer);
        sound.then_some(Parts {
            header,
            lines,
            footer,
        })
    }

    /// Where line k, counted from 1, begins in the file, counted from 0.
    pub fn place_of_line(self, k: usize) -> usize {
        self.header + self.line * (k - 1)
    }
}

fn ends_in_its_only_line_feed(part: &[u8]) -> bool {
    part.iter().position(|&byte| byte == LINE_FEED) == Some(part.len() - 1)
}
