//! The station table, its stations in a hash set.

use super::fields::{all_digits, all_digits_or_capitals, joined, number};
use super::file::{cut, ends_in_line_feed};
use reference::columns::{body, tst_header, tst_line, Columns};
use reference::lines::TST;
use std::collections::HashSet;

/// Actor, station and lane side by side.
type Triple = [u8; 14];

const IN_TABLE: [Columns; 3] = [tst_line::ACTOR, tst_line::STATION, tst_line::LANE];
const IN_LINE: [Columns; 2] = [body::EXIT_ACTOR, body::STATION_AND_LANE];

pub struct Stations {
    known: HashSet<Triple>,
}

impl Stations {
    /// The stations, where the table is in form (E8).
    pub fn read(tst: &[u8]) -> Option<Stations> {
        let (header, lines, footer) = cut(tst, TST)?;
        let count = lines.len() / TST.line;
        let in_form = header[0] == b'0'
            && ends_in_line_feed(header)
            && tst_header::VERSION.of(header) == b"500001"
            && number(tst_header::RECORDS.of(header)) == Some(count as u64)
            && footer[0] == b'2'
            && ends_in_line_feed(footer);
        if !in_form {
            return None;
        }
        let mut known = HashSet::with_capacity(count);
        for line in lines.chunks_exact(TST.line) {
            if !is_station(line) || !known.insert(joined(&IN_TABLE, line)) {
                return None;
            }
        }
        Some(Stations { known })
    }

    pub fn have(&self, tif_line: &[u8]) -> bool {
        self.known.contains(&joined(&IN_LINE, tif_line))
    }
}

fn is_station(line: &[u8]) -> bool {
    line[0] == b'1'
        && ends_in_line_feed(line)
        && all_digits_or_capitals(tst_line::ACTOR.of(line))
        && all_digits(tst_line::STATION.of(line))
        && all_digits(tst_line::LANE.of(line))
}
