//! TIFs of given lines, with header and footer that agree with them.

use crate::acceptance::Side;
use crate::columns::{body, name, tif_footer as footer, tif_header as header, Columns};
use crate::text::{digits_value, padded};

/// What a header says besides its lines.
#[derive(Clone, Copy, Debug)]
pub struct HeaderValues<'a> {
    pub name: &'a [u8],
    pub side: Side,
    pub transactions: usize,
    pub creation: &'a [u8],
}

/// A TIF of these lines, whose amounts with VAT are digits.
pub fn write_tif(values: &HeaderValues, lines: &[Vec<u8>]) -> Vec<u8> {
    let mut tif = header_text(values, lines.len());
    tif.extend(lines.concat());
    tif.extend(footer_text(lines.iter().map(|line| amount_of(line)).sum()));
    tif
}

/// The amount with VAT of a line.
pub fn amount_of(line: &[u8]) -> u64 {
    digits_value(body::AMOUNT_WITH_VAT.of(line)).expect("an amount of digits")
}

fn header_text(values: &HeaderValues, records: usize) -> Vec<u8> {
    let mut text = vec![b'0'; header::WIDTH];
    let mut put = |columns: Columns, piece: &[u8]| columns.put(&mut text, piece);
    put(header::SENDER, name::SENDER.of(values.name));
    put(header::RECEIVER, name::RECEIVER.of(values.name));
    put(header::FILE_SEQUENCE, name::FILE_SEQUENCE.of(values.name));
    put(header::PREVIOUS_SEQUENCE, b"TIF000000000000      ");
    put(header::CURRENCY, b"NOK");
    put(header::RECORDS, &padded(records as u64, 15));
    put(header::SIDE, values.side.text().as_bytes());
    put(
        header::TRANSACTIONS,
        &padded(values.transactions as u64, 15),
    );
    put(header::CREATION, values.creation);
    put(header::VERSION, b"130001");
    put(header::LINE_FEED, b"\n");
    text
}

fn footer_text(total: u64) -> Vec<u8> {
    let mut text = vec![b'0'; footer::WIDTH];
    footer::REGISTER.put(&mut text, b"2");
    footer::TOTAL.put(&mut text, &padded(total, 15));
    footer::LINE_FEED.put(&mut text, b"\n");
    text
}
