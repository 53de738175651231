//! Columns of the files, counted from 1 as AP-3.7 and AP-3.4 count them; each is
//! named once.

/// A stretch of columns of one line, both ends counted from 1 and both included.
#[derive(Clone, Copy, Debug, PartialEq, Eq)]
pub struct Columns {
    pub first: usize,
    pub last: usize,
}

impl Columns {
    pub const fn new(first: usize, last: usize) -> Columns {
        Columns { first, last }
    }

    pub const fn width(self) -> usize {
        self.last + 1 - self.first
    }

    /// Where the stretch begins, counted from 0.
    pub const fn offset(self) -> usize {
        self.first - 1
    }

    /// The stretch of a line that is long enough to have it.
    pub fn of(self, line: &[u8]) -> &[u8] {
        &line[self.offset()..self.last]
    }

    /// The stretch, or nothing where the bytes end before it does.
    pub fn found_in(self, bytes: &[u8]) -> Option<&[u8]> {
        bytes.get(self.offset()..self.last)
    }

    /// Puts a text of the stretch's own width in its place.
    pub fn put(self, line: &mut [u8], text: &[u8]) {
        line[self.offset()..self.last].copy_from_slice(text);
    }
}

const fn columns(first: usize, last: usize) -> Columns {
    Columns::new(first, last)
}

/// The file name, 35 characters (01, "File name").
pub mod name {
    use super::{columns, Columns};

    pub const WIDTH: usize = 35;
    pub const KIND: Columns = columns(1, 3);
    pub const SENDER: Columns = columns(4, 9);
    pub const DATE: Columns = columns(10, 17);
    pub const SEQUENCE: Columns = columns(18, 21);
    pub const FIRST_BAR: Columns = columns(22, 22);
    pub const RECEIVER: Columns = columns(23, 28);
    pub const SECOND_BAR: Columns = columns(29, 29);
    pub const VERSION: Columns = columns(30, 35);
    /// What the header's file sequence repeats.
    pub const FILE_SEQUENCE: Columns = columns(1, 21);
    /// What a TIF's sequence and its TIC's sequence have in common.
    pub const AFTER_KIND: Columns = columns(4, 21);
}

/// The TIF header, 162 bytes (004, 2.1).
pub mod tif_header {
    use super::{columns, Columns};

    pub const WIDTH: usize = 162;
    pub const REGISTER: Columns = columns(1, 1);
    pub const SENDER: Columns = columns(2, 7);
    pub const RECEIVER: Columns = columns(8, 13);
    pub const FILE_SEQUENCE: Columns = columns(14, 34);
    pub const PREVIOUS_SEQUENCE: Columns = columns(35, 55);
    pub const CURRENCY: Columns = columns(56, 58);
    pub const RECORDS: Columns = columns(59, 73);
    pub const SIDE: Columns = columns(74, 76);
    pub const TRANSACTIONS: Columns = columns(77, 91);
    pub const CREATION: Columns = columns(92, 105);
    pub const VERSION: Columns = columns(106, 111);
    pub const FILLER: Columns = columns(112, 161);
    pub const LINE_FEED: Columns = columns(162, 162);
}

/// A TIF body line, W = 810 bytes with its line feed (004, 2.2).
pub mod body {
    use super::{columns, Columns};

    pub const WIDTH: usize = 810;
    pub const REGISTER: Columns = columns(1, 1);
    pub const TYPE: Columns = columns(2, 3);
    pub const PAN: Columns = columns(4, 22);
    pub const EXIT_MOMENT: Columns = columns(61, 74);
    pub const EXIT_ACTOR: Columns = columns(77, 82);
    pub const STATION: Columns = columns(84, 87);
    pub const LANE: Columns = columns(88, 91);
    pub const FEE_WITHOUT_VAT: Columns = columns(115, 125);
    pub const AMOUNT_OF_VAT: Columns = columns(126, 136);
    pub const AMOUNT_WITH_VAT: Columns = columns(137, 147);
    pub const CURRENCY: Columns = columns(148, 150);
    pub const COUNTER: Columns = columns(228, 239);
    pub const DECLARED_PLATE: Columns = columns(240, 249);
    pub const DECLARED_NATION: Columns = columns(250, 251);
    pub const DETECTED_PLATE: Columns = columns(252, 261);
    pub const DETECTED_NATION: Columns = columns(262, 263);
    pub const FUEL: Columns = columns(293, 295);
    pub const EMISSION: Columns = columns(296, 297);
    pub const TARIFF_CLASS: Columns = columns(298, 299);
    pub const LINE_FEED: Columns = columns(810, 810);

    /// Station and lane side by side, as L6 and L8 name them.
    pub const STATION_AND_LANE: Columns = columns(84, 91);
    /// Detected plate and nation side by side, as L6 and L8 name them.
    pub const DETECTED: Columns = columns(252, 263);
    /// Type and PAN side by side, as L6 names them.
    pub const TYPE_AND_PAN: Columns = columns(2, 22);

    /// What two lines of a file share when the later one repeats the earlier (01, L6).
    pub const REPEATED: [Columns; 5] = [
        TYPE_AND_PAN,
        EXIT_MOMENT,
        EXIT_ACTOR,
        STATION_AND_LANE,
        DETECTED,
    ];

    /// What a debit and a credit share when they agree (01, L8).
    pub const AGREEING: [Columns; 6] = [
        PAN,
        EXIT_MOMENT,
        EXIT_ACTOR,
        STATION_AND_LANE,
        DETECTED,
        AMOUNT_WITH_VAT,
    ];
}

/// The TIF footer, 107 bytes (004, 2.3).
pub mod tif_footer {
    use super::{columns, Columns};

    pub const WIDTH: usize = 107;
    pub const REGISTER: Columns = columns(1, 1);
    pub const TOTAL: Columns = columns(2, 16);
    pub const FILLER: Columns = columns(17, 106);
    pub const LINE_FEED: Columns = columns(107, 107);
}

/// The TIC header, 196 bytes (004, 3.1).
pub mod tic_header {
    use super::{columns, Columns};

    pub const WIDTH: usize = 196;
    pub const REGISTER: Columns = columns(1, 1);
    /// Sender of the TIC: the receiver of the TIF.
    pub const SENDER: Columns = columns(2, 7);
    /// Receiver of the TIC: the sender of the TIF.
    pub const RECEIVER: Columns = columns(8, 13);
    pub const FILE_SEQUENCE: Columns = columns(14, 34);
    pub const FILE_RECEIVED: Columns = columns(35, 55);
    pub const RECEPTION: Columns = columns(56, 69);
    pub const CURRENCY: Columns = columns(70, 72);
    pub const ACCEPTED: Columns = columns(73, 87);
    pub const REJECTED: Columns = columns(88, 102);
    pub const SIDE: Columns = columns(103, 105);
    pub const ACCEPTED_TRANSACTIONS: Columns = columns(106, 120);
    pub const REJECTED_TRANSACTIONS: Columns = columns(121, 135);
    pub const VERSION: Columns = columns(136, 141);
    pub const TIC_NUMBER: Columns = columns(142, 147);
    pub const FILLER: Columns = columns(148, 193);
    pub const ACCEPTANCE: Columns = columns(194, 195);
    pub const LINE_FEED: Columns = columns(196, 196);
}

/// A TIC body line, 812 bytes with its line feed (004, 3.2).
pub mod tic_line {
    use super::{columns, Columns};

    pub const WIDTH: usize = 812;
    pub const REGISTER: Columns = columns(1, 1);
    /// Columns 2 to 809 of the TIF line.
    pub const COPY: Columns = columns(2, 809);
    /// The listed line as it is shown: with its "1", without code and line feed.
    pub const LISTED: Columns = columns(1, 809);
    pub const CODE: Columns = columns(810, 811);
    pub const LINE_FEED: Columns = columns(812, 812);
}

/// The TIC footer, 128 bytes (004, 3.3).
pub mod tic_footer {
    use super::{columns, Columns};

    pub const WIDTH: usize = 128;
    pub const REGISTER: Columns = columns(1, 1);
    pub const ACCEPTED_SUM: Columns = columns(2, 16);
    pub const REJECTED_SUM: Columns = columns(17, 31);
    pub const FILLER: Columns = columns(32, 127);
    pub const LINE_FEED: Columns = columns(128, 128);
}

/// The header of a station table, 128 bytes (000, 2.1).
pub mod tst_header {
    use super::{columns, Columns};

    pub const WIDTH: usize = 128;
    pub const REGISTER: Columns = columns(1, 1);
    pub const RECORDS: Columns = columns(66, 80);
    pub const VERSION: Columns = columns(95, 100);
    pub const LINE_FEED: Columns = columns(128, 128);

    /// Sender to moment of activation, moment of creation, filler: free.
    pub const FREE: [Columns; 3] = [columns(2, 65), columns(81, 94), columns(101, 127)];
}

/// A line of a station table, 233 bytes with its line feed (000, 2.2).
pub mod tst_line {
    use super::{columns, Columns};

    pub const WIDTH: usize = 233;
    pub const REGISTER: Columns = columns(1, 1);
    pub const ACTOR: Columns = columns(4, 9);
    pub const STATION: Columns = columns(61, 64);
    pub const LANE: Columns = columns(117, 120);
    pub const LINE_FEED: Columns = columns(233, 233);

    /// Country, names and codes, positions, supplier and the rest: free.
    pub const FREE: [Columns; 4] = [
        columns(2, 3),
        columns(10, 60),
        columns(65, 116),
        columns(121, 232),
    ];
}

/// The footer of a station table, 64 bytes (000, 2.3).
pub mod tst_footer {
    use super::{columns, Columns};

    pub const WIDTH: usize = 64;
    pub const REGISTER: Columns = columns(1, 1);
    pub const LINE_FEED: Columns = columns(64, 64);

    /// The filler: free.
    pub const FREE: [Columns; 1] = [columns(2, 63)];
}

/// An entry of the agreement book, 23 bytes (01, "What is lent").
pub mod book_entry {
    use super::{columns, Columns};

    pub const WIDTH: usize = 23;
    pub const PAN: Columns = columns(1, 19);
    pub const OFFSET: Columns = columns(20, 23);
}

/// The opening of an agreement's body, 14 bytes (01, "What is lent").
pub mod book_body {
    use super::{columns, Columns};

    pub const WIDTH: usize = 14;
    pub const LEASE_REFERENCE: Columns = columns(1, 12);
    pub const PERIODS: Columns = columns(13, 14);
}

/// A period of an agreement, 40 bytes (01, "What is lent").
pub mod book_period {
    use super::{columns, Columns};

    pub const WIDTH: usize = 40;
    pub const PLATE: Columns = columns(1, 10);
    pub const NATION: Columns = columns(11, 12);
    pub const START: Columns = columns(13, 26);
    pub const END: Columns = columns(27, 40);
}
