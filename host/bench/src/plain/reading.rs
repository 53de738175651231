//! Reading a TIC: T1 to T5.

use super::fields::{all_are, all_digits_or_capitals, number, real_moment};
use super::file::{cut, ends_in_line_feed, is_sequence};
use super::tic::SIDES;
use reference::columns::{body, name, tic_footer, tic_header, tic_line};
use reference::lines::TIC;

/// The numbers of a header.
struct Counts {
    side: u64,
    accepted: u64,
    rejected: u64,
    again: [u64; 2],
    acceptance: u64,
}

/// Reads a TIC as the library does: 0 and its values, or 1 to 5.
pub fn read_tic(tic: &[u8], values: &mut [u64; 7]) -> u32 {
    match try_read(tic) {
        Ok(found) => {
            *values = found;
            0
        }
        Err(number) => number,
    }
}

fn try_read(tic: &[u8]) -> Result<[u64; 7], u32> {
    let (header, lines, footer) = cut_in_form(tic).ok_or(1u32)?;
    let counts = read_header(header).ok_or(2u32)?;
    let listed = (lines.len() / tic_line::WIDTH) as u64;
    if !counts_agree(&counts, listed) {
        return Err(3);
    }
    let sum = sum_of_amounts(lines).ok_or(4u32)?;
    let accepted_amount = read_footer(footer, &counts, sum).ok_or(5u32)?;
    Ok([
        counts.acceptance,
        counts.side,
        counts.accepted,
        counts.rejected,
        listed,
        accepted_amount,
        sum,
    ])
}

/// The parts, where the line feeds are right as well.
fn cut_in_form(tic: &[u8]) -> Option<(&[u8], &[u8], &[u8])> {
    let (header, lines, footer) = cut(tic, TIC)?;
    let in_form = ends_in_line_feed(header)
        && lines.chunks_exact(tic_line::WIDTH).all(ends_in_line_feed)
        && ends_in_line_feed(footer);
    in_form.then_some((header, lines, footer))
}

fn read_header(header: &[u8]) -> Option<Counts> {
    let sequence = tic_header::FILE_RECEIVED.of(header);
    let own = tic_header::FILE_SEQUENCE.of(header);
    let in_form = header[0] == b'0'
        && all_digits_or_capitals(tic_header::SENDER.of(header))
        && is_sequence(sequence)
        && tic_header::RECEIVER.of(header) == name::SENDER.of(sequence)
        && name::KIND.of(own) == b"TIC"
        && name::AFTER_KIND.of(own) == name::AFTER_KIND.of(sequence)
        && real_moment(tic_header::RECEPTION.of(header)).is_some()
        && tic_header::CURRENCY.of(header) == b"NOK"
        && &header[135..147] == b"130001      "
        && all_are(tic_header::FILLER.of(header), b'0');
    let side = SIDES
        .iter()
        .position(|side| *side == tic_header::SIDE.of(header))?;
    let counts = Counts {
        side: side as u64,
        accepted: number(tic_header::ACCEPTED.of(header))?,
        rejected: number(tic_header::REJECTED.of(header))?,
        again: [
            number(tic_header::ACCEPTED_TRANSACTIONS.of(header))?,
            number(tic_header::REJECTED_TRANSACTIONS.of(header))?,
        ],
        acceptance: number(tic_header::ACCEPTANCE.of(header))?,
    };
    in_form.then_some(counts)
}

fn counts_agree(counts: &Counts, listed: u64) -> bool {
    let lawful = match counts.acceptance {
        0 => counts.rejected == 0 && counts.side != 0,
        1 => counts.rejected > 0 && counts.side != 0,
        2..=5 => counts.accepted == 0 && counts.rejected == 0,
        _ => false,
    };
    lawful
        && counts.again == [counts.accepted, counts.rejected]
        && counts.rejected == listed
        && counts.accepted + counts.rejected <= 9_999
}

fn sum_of_amounts(lines: &[u8]) -> Option<u64> {
    lines
        .chunks_exact(tic_line::WIDTH)
        .try_fold(0, |sum, line| {
            let in_form = line[0] == b'1' && all_digits_or_capitals(tic_line::CODE.of(line));
            let amount = number(body::AMOUNT_WITH_VAT.of(line))?;
            in_form.then_some(sum + amount)
        })
}

fn read_footer(footer: &[u8], counts: &Counts, sum: u64) -> Option<u64> {
    let accepted = number(tic_footer::ACCEPTED_SUM.of(footer))?;
    let rejected = number(tic_footer::REJECTED_SUM.of(footer))?;
    let in_form = footer[0] == b'2'
        && rejected == sum
        && (counts.accepted > 0 || accepted == 0)
        && all_are(tic_footer::FILLER.of(footer), b'0');
    in_form.then_some(accepted)
}
