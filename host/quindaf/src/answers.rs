//! The numbers of the library as enums and named values.

use std::error::Error;
use std::fmt;

/// An amount with VAT, in 1/100 NOK.
#[derive(Clone, Copy, Debug, Default, PartialEq, Eq, PartialOrd, Ord)]
pub struct Gross(pub u64);

/// A fee without VAT, in 1/100 NOK.
#[derive(Clone, Copy, Debug, Default, PartialEq, Eq, PartialOrd, Ord)]
pub struct Net(pub u64);

/// Why a call is refused: E1 to E8. Nothing lent is changed.
#[derive(Clone, Copy, Debug, PartialEq, Eq, Hash)]
pub enum CallFault {
    /// E1: the file name is out of form.
    Name = 1,
    /// E2: the reception moment is not real.
    Reception = 2,
    /// E3: the code card is wrong in length or character.
    Card = 3,
    /// E4: the received names are no whole slots.
    ReceivedNames = 4,
    /// E5: the book is out of form or too long.
    Book = 5,
    /// E6: an open debit is out of form, or there are too many.
    Debits = 6,
    /// E7: output or records too few. Only a lent output can give it.
    Room = 7,
    /// E8: the station table is out of form.
    Stations = 8,
}

impl CallFault {
    const ALL: [CallFault; 8] = [
        CallFault::Name,
        CallFault::Reception,
        CallFault::Card,
        CallFault::ReceivedNames,
        CallFault::Book,
        CallFault::Debits,
        CallFault::Room,
        CallFault::Stations,
    ];

    /// The number in the house rules, 1 to 8.
    pub fn number(self) -> u32 {
        self as u32
    }

    /// The answer of the library as a result; it gives no number above 8.
    pub(crate) fn check(answer: u32) -> Result<(), CallFault> {
        match answer {
            0 => Ok(()),
            number => Err(CallFault::ALL[number as usize - 1]),
        }
    }
}

impl fmt::Display for CallFault {
    fn fmt(&self, to: &mut fmt::Formatter) -> fmt::Result {
        let what = match self {
            CallFault::Name => "the file name is out of form",
            CallFault::Reception => "the reception moment is not real",
            CallFault::Card => "the code card is out of form",
            CallFault::ReceivedNames => "the received names are no whole slots",
            CallFault::Book => "the agreement book is out of form",
            CallFault::Debits => "the open debits are out of form",
            CallFault::Room => "the output or the records are too few",
            CallFault::Stations => "the station table is out of form",
        };
        write!(to, "E{}: {what}", self.number())
    }
}

impl Error for CallFault {}

/// File acceptance, 00 to 05.
#[derive(Clone, Copy, Debug, PartialEq, Eq, PartialOrd, Ord, Hash)]
pub enum Acceptance {
    /// 00: every line accepted, or no line at all.
    Full = 0,
    /// 01: one line refused or more.
    Partial = 1,
    /// 02: the name is among those received.
    AlreadyReceived = 2,
    /// 03: records or transactions disagree with the lines.
    CountsDiffer = 3,
    /// 04: the footer's total is not the sum of the amounts.
    TotalDiffers = 4,
    /// 05: the file is out of form.
    Miscellaneous = 5,
}

impl Acceptance {
    const ALL: [Acceptance; 6] = [
        Acceptance::Full,
        Acceptance::Partial,
        Acceptance::AlreadyReceived,
        Acceptance::CountsDiffer,
        Acceptance::TotalDiffers,
        Acceptance::Miscellaneous,
    ];

    /// The number, 0 to 5.
    pub fn number(self) -> u64 {
        self as u64
    }

    /// The acceptance that the library gave, 0 to 5.
    pub(crate) fn of_number(number: u64) -> Acceptance {
        Acceptance::ALL[number as usize]
    }
}

/// Two digits, as in the TIC.
impl fmt::Display for Acceptance {
    fn fmt(&self, to: &mut fmt::Formatter) -> fmt::Result {
        write!(to, "{:02}", self.number())
    }
}

/// The side of a file; one that names neither has none.
#[derive(Clone, Copy, Debug, PartialEq, Eq, Hash)]
pub enum Side {
    /// CRE.
    Credit,
    /// DEB.
    Debit,
}

impl Side {
    /// The side that the library gave: 0 neither, 1 CRE, 2 DEB.
    pub(crate) fn of_number(number: u64) -> Option<Side> {
        [None, Some(Side::Credit), Some(Side::Debit)][number as usize]
    }
}

/// What is said of a whole file; with 02 to 05 the six numbers are zero.
#[derive(Clone, Copy, Debug, PartialEq, Eq)]
pub struct Summary {
    /// 00 to 05.
    pub acceptance: Acceptance,
    /// Columns 74-76 of the TIF.
    pub side: Option<Side>,
    /// Lines judged.
    pub lines: usize,
    /// Lines accepted.
    pub accepted: usize,
    /// Lines refused.
    pub refused: usize,
    /// The amounts of all lines.
    pub total: Gross,
    /// The amounts of the accepted lines.
    pub accepted_amount: Gross,
    /// The amounts of the refused lines.
    pub refused_amount: Gross,
}

impl Summary {
    /// The first eight of the library's nine numbers.
    pub(crate) fn of_numbers(numbers: &[u64; 9]) -> Summary {
        Summary {
            acceptance: Acceptance::of_number(numbers[0]),
            side: Side::of_number(numbers[1]),
            lines: numbers[2] as usize,
            accepted: numbers[3] as usize,
            refused: numbers[4] as usize,
            total: Gross(numbers[5]),
            accepted_amount: Gross(numbers[6]),
            refused_amount: Gross(numbers[7]),
        }
    }
}

/// Why a TIC does not read: T1 to T5.
#[derive(Clone, Copy, Debug, PartialEq, Eq, Hash)]
pub enum TicFault {
    /// T1: length or line feeds.
    LengthOrLineFeeds = 1,
    /// T2: a header column out of form, or two that name different TIFs.
    Header = 2,
    /// T3: counts that disagree with each other, the lines or the acceptance.
    Counts = 3,
    /// T4: a listed line or its code.
    ListedLine = 4,
    /// T5: the footer.
    Footer = 5,
}

impl TicFault {
    const ALL: [TicFault; 5] = [
        TicFault::LengthOrLineFeeds,
        TicFault::Header,
        TicFault::Counts,
        TicFault::ListedLine,
        TicFault::Footer,
    ];

    /// The number in the house rules, 1 to 5.
    pub fn number(self) -> u32 {
        self as u32
    }

    /// The answer of the reader as a result; it gives no number above 5.
    pub(crate) fn check(answer: u32) -> Result<(), TicFault> {
        match answer {
            0 => Ok(()),
            number => Err(TicFault::ALL[number as usize - 1]),
        }
    }
}

impl fmt::Display for TicFault {
    fn fmt(&self, to: &mut fmt::Formatter) -> fmt::Result {
        let what = match self {
            TicFault::LengthOrLineFeeds => "length or line feeds",
            TicFault::Header => "a header column",
            TicFault::Counts => "counts that disagree",
            TicFault::ListedLine => "a listed line",
            TicFault::Footer => "the footer",
        };
        write!(to, "T{}: {what}", self.number())
    }
}

impl Error for TicFault {}

/// E7 of a lent output: it is shorter than the TIC, and unchanged.
#[derive(Clone, Copy, Debug, PartialEq, Eq, Hash)]
pub struct NoRoom;

impl fmt::Display for NoRoom {
    fn fmt(&self, to: &mut fmt::Formatter) -> fmt::Result {
        write!(to, "E7: the output is shorter than the TIC")
    }
}

impl Error for NoRoom {}
