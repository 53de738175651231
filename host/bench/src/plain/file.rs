//! The call's small parts, and the file as a whole: E1 to E4 and 02 to 05.

use super::fields::{all_are, all_digits_or_capitals, number, real_date, real_moment};
use reference::columns::{body, name, tif_footer, tif_header};
use reference::lines::{Layout, TIF};

/// A file to be judged line by line.
pub struct SoundFile<'a> {
    pub is_debit: bool,
    pub lines: &'a [u8],
}

pub fn is_name(text: &[u8]) -> bool {
    text.len() == name::WIDTH
        && is_sequence(name::FILE_SEQUENCE.of(text))
        && text[21] == b'_'
        && all_digits_or_capitals(name::RECEIVER.of(text))
        && &text[28..] == b"_130001"
}

/// TIF, an actor, a real date, a sequence that is not zero.
pub fn is_sequence(text: &[u8]) -> bool {
    name::KIND.of(text) == b"TIF"
        && all_digits_or_capitals(name::SENDER.of(text))
        && real_date(name::DATE.of(text)).is_some()
        && number(name::SEQUENCE.of(text)).is_some_and(|sequence| sequence > 0)
}

/// 0 neither, 1 CRE, 2 DEB, from columns 74-76 of any file.
pub fn side_number(tif: &[u8]) -> u64 {
    match tif_header::SIDE.found_in(tif) {
        Some(b"CRE") => 1,
        Some(b"DEB") => 2,
        _ => 0,
    }
}

/// The file to be judged, or 02 to 05.
pub fn accept<'a>(file_name: &[u8], names: &[u8], tif: &'a [u8]) -> Result<SoundFile<'a>, u64> {
    let mut received = names.chunks_exact(name::WIDTH);
    if received.any(|received| received == file_name) {
        return Err(2);
    }
    let (header, lines, footer) = cut(tif, TIF).ok_or(5u64)?;
    let sum = sum_of_amounts(lines).ok_or(5u64)?;
    let (records, transactions) = read_header(header, file_name).ok_or(5u64)?;
    let total = read_footer(footer).ok_or(5u64)?;
    let count = (lines.len() / body::WIDTH) as u64;
    if records != count || (transactions != 0 && transactions != count) {
        return Err(3);
    }
    if total != sum {
        return Err(4);
    }
    Ok(SoundFile {
        is_debit: tif_header::SIDE.of(header) == b"DEB",
        lines,
    })
}

/// Header, lines and footer of a file, where the length is right.
pub fn cut(file: &[u8], layout: Layout) -> Option<(&[u8], &[u8], &[u8])> {
    let lines = layout.lines_in(file.len())?;
    let (header, rest) = file.split_at(layout.header);
    let (lines, footer) = rest.split_at(layout.line * lines);
    Some((header, lines, footer))
}

/// Whether the only line feed of a part is its last byte.
pub fn ends_in_line_feed(part: &[u8]) -> bool {
    let (last, before) = part.split_last().expect("a part is not empty");
    // One test over all bytes, without a way out, runs many bytes at a time.
    let inside = before
        .iter()
        .fold(false, |found, &byte| found | (byte == b'\n'));
    *last == b'\n' && !inside
}

/// The sum of the amounts with VAT, where every line is in form.
fn sum_of_amounts(lines: &[u8]) -> Option<u64> {
    lines.chunks_exact(body::WIDTH).try_fold(0, |sum, line| {
        let in_form = line[0] == b'1' && ends_in_line_feed(line);
        let amount = number(body::AMOUNT_WITH_VAT.of(line))?;
        in_form.then_some(sum + amount)
    })
}

/// Records and transactions, where the header is in form.
fn read_header(header: &[u8], file_name: &[u8]) -> Option<(u64, u64)> {
    let in_form = header[0] == b'0'
        && ends_in_line_feed(header)
        && tif_header::SENDER.of(header) == name::SENDER.of(file_name)
        && tif_header::RECEIVER.of(header) == name::RECEIVER.of(file_name)
        && tif_header::FILE_SEQUENCE.of(header) == name::FILE_SEQUENCE.of(file_name)
        && tif_header::CURRENCY.of(header) == b"NOK"
        && side_number(header) != 0
        && tif_header::VERSION.of(header) == b"130001"
        && real_moment(tif_header::CREATION.of(header)).is_some()
        && all_are(tif_header::FILLER.of(header), b'0');
    let records = number(tif_header::RECORDS.of(header))?;
    let transactions = number(tif_header::TRANSACTIONS.of(header))?;
    in_form.then_some((records, transactions))
}

fn read_footer(footer: &[u8]) -> Option<u64> {
    let in_form = footer[0] == b'2'
        && ends_in_line_feed(footer)
        && all_are(tif_footer::FILLER.of(footer), b'0');
    number(tif_footer::TOTAL.of(footer)).filter(|_| in_form)
}
