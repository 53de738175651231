//! The file acceptances 00 to 05 and the side of a file.

/// File acceptance (004, 3.1, columns 194-195; 99 is not included).
#[derive(Clone, Copy, Debug, PartialEq, Eq, PartialOrd, Ord)]
pub enum Acceptance {
    Full = 0,
    Partial = 1,
    AlreadyReceived = 2,
    CountsDiffer = 3,
    TotalDiffers = 4,
    Miscellaneous = 5,
}

impl Acceptance {
    pub const ALL: [Acceptance; 6] = [
        Acceptance::Full,
        Acceptance::Partial,
        Acceptance::AlreadyReceived,
        Acceptance::CountsDiffer,
        Acceptance::TotalDiffers,
        Acceptance::Miscellaneous,
    ];

    pub fn number(self) -> u64 {
        self as u64
    }

    pub fn from_number(number: u64) -> Option<Acceptance> {
        Acceptance::ALL
            .into_iter()
            .find(|acceptance| acceptance.number() == number)
    }

    /// Two digits, as written in the TIC and as printed.
    pub fn code(self) -> String {
        format!("{:02}", self.number())
    }

    /// Whether the file was judged line by line.
    pub fn is_line_by_line(self) -> bool {
        self <= Acceptance::Partial
    }
}

/// CRE or DEB; a file with neither has no side.
#[derive(Clone, Copy, Debug, PartialEq, Eq)]
pub enum Side {
    Credit,
    Debit,
}

impl Side {
    pub fn text(self) -> &'static str {
        match self {
            Side::Credit => "CRE",
            Side::Debit => "DEB",
        }
    }

    pub fn read(text: &[u8]) -> Option<Side> {
        match text {
            b"CRE" => Some(Side::Credit),
            b"DEB" => Some(Side::Debit),
            _ => None,
        }
    }
}

/// CRE, DEB, or "000" where there is neither (01, "The TIC").
pub fn side_text(side: Option<Side>) -> &'static str {
    side.map_or("000", Side::text)
}
