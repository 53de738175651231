//! What a call is lent: names, moments and debits in types that have the right
//! lengths, and bytes whose length the call checks.

use std::array::TryFromSliceError;

/// The width of a TIF line and of an open debit, with its line feed.
pub(crate) const LINE_WIDTH: usize = 810;

/// A type over an array of bytes, taken from a slice of its length.
macro_rules! fixed_bytes {
    ($(#[$doc:meta])* $name:ident, $width:literal) => {
        $(#[$doc])*
        #[derive(Clone, Copy, Debug, PartialEq, Eq, Hash)]
        pub struct $name(pub [u8; $width]);

        impl TryFrom<&[u8]> for $name {
            type Error = TryFromSliceError;

            fn try_from(bytes: &[u8]) -> Result<$name, TryFromSliceError> {
                bytes.try_into().map($name)
            }
        }
    };
}

fixed_bytes! {
    /// A file name: 35 characters, whose form the call checks (E1).
    FileName, 35
}

fixed_bytes! {
    /// A moment YYYYMMDDhhmmss, which the call checks (E2).
    Moment, 14
}

/// Two characters for each of L1 to L8, and then two for L9 where a station table
/// is lent: 16 or 18 bytes, which the call checks (E3).
#[derive(Clone, Debug, PartialEq, Eq)]
pub struct CodeCard(pub Vec<u8>);

/// An agreement book as bytes, whose form the call checks (E5).
#[derive(Clone, Debug, PartialEq, Eq)]
pub struct Book(pub Vec<u8>);

impl Book {
    /// The smallest book: no agreement.
    pub fn empty() -> Book {
        Book(vec![0, 0])
    }
}

/// A toll station table as bytes, whose form the call checks (E8).
#[derive(Clone, Debug, Default, PartialEq, Eq)]
pub struct StationTable(pub Vec<u8>);

impl StationTable {
    /// No bytes at all: no table is lent, and no line has L9. A table of 192 bytes
    /// is another thing: it has no station, so that every line may have L9.
    pub fn none() -> StationTable {
        StationTable::default()
    }
}

/// Whether an open debit was taken by a credit.
#[derive(Clone, Copy, Debug, PartialEq, Eq, Hash)]
pub enum Mark {
    /// No credit took it.
    Free = 0,
    /// A credit took it.
    Taken = 1,
}

/// Open debits in their order, each with its mark; the call checks the form of
/// the lines and that there are at most 9,999 (E6).
#[derive(Clone, Debug, Default, PartialEq, Eq)]
pub struct OpenDebits {
    lines: Vec<[u8; LINE_WIDTH]>,
    /// 0 or 1, one for each line.
    marks: Vec<u8>,
}

impl OpenDebits {
    /// None.
    pub fn new() -> OpenDebits {
        OpenDebits::default()
    }

    /// Adds a debit behind the others.
    pub fn push(&mut self, line: [u8; LINE_WIDTH], mark: Mark) {
        self.lines.push(line);
        self.marks.push(mark as u8);
    }

    /// How many there are.
    pub fn len(&self) -> usize {
        self.lines.len()
    }

    /// Whether there is none.
    pub fn is_empty(&self) -> bool {
        self.lines.is_empty()
    }

    /// The lines in their order.
    pub fn lines(&self) -> &[[u8; LINE_WIDTH]] {
        &self.lines
    }

    /// The marks in the order of the lines.
    pub fn marks(&self) -> impl ExactSizeIterator<Item = Mark> + '_ {
        self.marks.iter().map(|&mark| match mark {
            0 => Mark::Free,
            _ => Mark::Taken,
        })
    }

    /// Drops the debits that were taken; the others are numbered anew.
    pub fn drop_taken(&mut self) {
        let mut marks = self.marks.iter();
        self.lines.retain(|_| marks.next() == Some(&0));
        self.marks.retain(|&mark| mark == 0);
    }

    /// The bytes of the lines, with the marks to be changed.
    pub(crate) fn lend(&mut self) -> (&[u8], &mut [u8]) {
        (self.lines.as_flattened(), &mut self.marks)
    }
}

impl FromIterator<([u8; LINE_WIDTH], Mark)> for OpenDebits {
    fn from_iter<I: IntoIterator<Item = ([u8; LINE_WIDTH], Mark)>>(debits: I) -> OpenDebits {
        let mut made = OpenDebits::new();
        for (line, mark) in debits {
            made.push(line, mark);
        }
        made
    }
}
