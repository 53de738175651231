//! The file name and the received names (01, "File name"; E1, E4, 02).

use crate::columns::name;
use crate::moment::is_real_date;
use crate::text::{all_digits, all_digits_or_capitals, all_zeros};

pub const VERSION: &[u8] = b"130001";

/// A name of the form of the paper; the check is `FileName::read`.
#[derive(Clone, Copy, Debug, PartialEq, Eq)]
pub struct FileName<'a> {
    text: &'a [u8],
}

impl<'a> FileName<'a> {
    /// The name, or nothing where it is out of form (E1).
    pub fn read(text: &'a [u8]) -> Option<FileName<'a>> {
        is_file_name(text).then_some(FileName { text })
    }

    pub fn text(self) -> &'a [u8] {
        self.text
    }

    pub fn sender(self) -> &'a [u8] {
        name::SENDER.of(self.text)
    }

    pub fn receiver(self) -> &'a [u8] {
        name::RECEIVER.of(self.text)
    }

    /// The 21 characters that the header repeats.
    pub fn file_sequence(self) -> &'a [u8] {
        name::FILE_SEQUENCE.of(self.text)
    }

    /// Name columns 4-21, shared by the TIF's and the TIC's sequence.
    pub fn after_kind(self) -> &'a [u8] {
        name::AFTER_KIND.of(self.text)
    }
}

fn is_file_name(text: &[u8]) -> bool {
    text.len() == name::WIDTH
        && is_file_sequence(name::FILE_SEQUENCE.of(text))
        && name::FIRST_BAR.of(text) == b"_"
        && all_digits_or_capitals(name::RECEIVER.of(text))
        && name::SECOND_BAR.of(text) == b"_"
        && name::VERSION.of(text) == VERSION
}

/// The first 21 columns: TIF, an actor, a real date, a sequence from 0001 to 9999.
pub fn is_file_sequence(text: &[u8]) -> bool {
    name::KIND.of(text) == b"TIF"
        && all_digits_or_capitals(name::SENDER.of(text))
        && is_real_date(name::DATE.of(text))
        && is_sequence(name::SEQUENCE.of(text))
}

fn is_sequence(sequence: &[u8]) -> bool {
    all_digits(sequence) && !all_zeros(sequence)
}

/// Received names are whole slots of 35 bytes; their contents are not judged (E4).
pub fn are_received_names(names: &[u8]) -> bool {
    names.len() % name::WIDTH == 0
}

/// Whether the name fills one of the slots (02).
pub fn is_among(file_name: &[u8], names: &[u8]) -> bool {
    names
        .chunks_exact(name::WIDTH)
        .any(|received| received == file_name)
}
