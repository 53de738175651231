//! The toll station table: its form (E8) and the stations it has (L9). The papers
//! are 02 (K1) and 000.

use crate::columns::{body, tst_header, tst_line};
use crate::lines::TST;
use crate::numbers::Count;
use crate::text::{all_digits, all_digits_or_capitals};
use std::collections::HashSet;

pub const VERSION: &[u8] = b"500001";

/// What names a station: actor, station and lane, all as bytes.
#[derive(Clone, Copy, Debug, PartialEq, Eq, PartialOrd, Ord, Hash)]
pub struct Station<'a> {
    pub actor: &'a [u8],
    pub station: &'a [u8],
    pub lane: &'a [u8],
}

impl<'a> Station<'a> {
    /// The station that a line of a table describes.
    pub fn described(table_line: &'a [u8]) -> Station<'a> {
        Station {
            actor: tst_line::ACTOR.of(table_line),
            station: tst_line::STATION.of(table_line),
            lane: tst_line::LANE.of(table_line),
        }
    }

    /// The station where the passage of a TIF line ended.
    pub fn passed(tif_line: &'a [u8]) -> Station<'a> {
        Station {
            actor: body::EXIT_ACTOR.of(tif_line),
            station: body::STATION.of(tif_line),
            lane: body::LANE.of(tif_line),
        }
    }

    /// An actor of digits or capitals; station and lane of digits.
    pub fn is_in_form(&self) -> bool {
        all_digits_or_capitals(self.actor) && all_digits(self.station) && all_digits(self.lane)
    }
}

/// The stations of a table that is in form.
#[derive(Clone, Debug, PartialEq, Eq)]
pub struct Stations<'a> {
    known: HashSet<Station<'a>>,
}

impl<'a> Stations<'a> {
    /// The table's stations, or nothing where it is out of form (E8).
    pub fn read(tst: &'a [u8]) -> Option<Stations<'a>> {
        let parts = TST.cut(tst)?;
        let lines = Count::of(parts.lines.len());
        let in_form = parts.registers_are_right()
            && tst_header::VERSION.of(parts.header) == VERSION
            && Count::read(tst_header::RECORDS.of(parts.header)) == Some(lines);
        if !in_form {
            return None;
        }
        let described = parts.lines.iter().map(|line| Station::described(line));
        let known: HashSet<Station> = described.filter(Station::is_in_form).collect();
        // A line out of form is missing from the set, a triple twice is there once.
        (Count::of(known.len()) == lines).then_some(Stations { known })
    }

    /// Whether the exit actor, station and lane of a TIF line are in the table.
    pub fn have(&self, tif_line: &[u8]) -> bool {
        self.known.contains(&Station::passed(tif_line))
    }
}
