//! The TIF: its side and its acceptance (01, "File acceptance").

use crate::acceptance::{Acceptance, Side};
use crate::columns::{body, tif_footer, tif_header};
use crate::lines::TIF;
use crate::moment::is_real_moment;
use crate::name::{is_among, FileName, VERSION};
use crate::numbers::{Count, Gross};
use crate::text::all_zeros;

/// A file that is to be judged line by line.
#[derive(Clone, Debug, PartialEq, Eq)]
pub struct SoundTif<'a> {
    pub side: Side,
    pub lines: Vec<&'a [u8]>,
    pub total: Gross,
}

/// What header, lines and footer say, where nothing gives 05.
struct Stated<'a> {
    side: Side,
    lines: Vec<&'a [u8]>,
    records: Count,
    transactions: Count,
    amounts: Vec<Gross>,
    total: Gross,
}

/// Columns 74-76, whatever the file's length or line feeds.
pub fn side_of(tif: &[u8]) -> Option<Side> {
    tif_header::SIDE.found_in(tif).and_then(Side::read)
}

/// The file to be judged line by line, or why it is refused as a whole: 02,
/// then 05, then 03, then 04.
pub fn accept<'a>(
    name: FileName<'_>,
    received_names: &[u8],
    tif: &'a [u8],
) -> Result<SoundTif<'a>, Acceptance> {
    if is_among(name.text(), received_names) {
        return Err(Acceptance::AlreadyReceived);
    }
    let stated = read_stated(name, tif).ok_or(Acceptance::Miscellaneous)?;
    if !counts_agree(&stated) {
        return Err(Acceptance::CountsDiffer);
    }
    if stated.amounts.iter().copied().sum::<Gross>() != stated.total {
        return Err(Acceptance::TotalDiffers);
    }
    Ok(SoundTif {
        side: stated.side,
        lines: stated.lines,
        total: stated.total,
    })
}

/// 03: records differ from n, or transactions are neither zero nor n.
fn counts_agree(stated: &Stated) -> bool {
    let lines = Count::of(stated.lines.len());
    stated.records == lines && (stated.transactions == Count(0) || stated.transactions == lines)
}

/// Every value the file states, or nothing for each cause of 05.
fn read_stated<'a>(name: FileName<'_>, tif: &'a [u8]) -> Option<Stated<'a>> {
    let parts = TIF.cut(tif)?;
    if !parts.registers_are_right() || !names_the_file(parts.header, name) {
        return None;
    }
    if !header_is_in_form(parts.header) || !all_zeros(tif_footer::FILLER.of(parts.footer)) {
        return None;
    }
    Some(Stated {
        side: Side::read(tif_header::SIDE.of(parts.header))?,
        records: Count::read(tif_header::RECORDS.of(parts.header))?,
        transactions: Count::read(tif_header::TRANSACTIONS.of(parts.header))?,
        amounts: read_amounts(&parts.lines)?,
        total: Gross::read(tif_footer::TOTAL.of(parts.footer))?,
        lines: parts.lines,
    })
}

/// Sender, receiver and sequence are those of the name.
fn names_the_file(header: &[u8], name: FileName) -> bool {
    tif_header::SENDER.of(header) == name.sender()
        && tif_header::RECEIVER.of(header) == name.receiver()
        && tif_header::FILE_SEQUENCE.of(header) == name.file_sequence()
}

fn header_is_in_form(header: &[u8]) -> bool {
    tif_header::CURRENCY.of(header) == b"NOK"
        && tif_header::VERSION.of(header) == VERSION
        && is_real_moment(tif_header::CREATION.of(header))
        && all_zeros(tif_header::FILLER.of(header))
}

/// The amount with VAT of each line, or nothing where one is not digits.
fn read_amounts(lines: &[&[u8]]) -> Option<Vec<Gross>> {
    lines
        .iter()
        .map(|line| Gross::read(body::AMOUNT_WITH_VAT.of(line)))
        .collect()
}
