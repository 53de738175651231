//! Station tables lent to generated calls: the stations of the lines, and near
//! misses of them.

use super::flaws::change_one;
use super::passage::{actor, ACTOR_CHARACTERS};
use super::rng::Rng;
use crate::call::Call;
use crate::columns::{body, tst_footer, tst_header, tst_line, Columns};
use crate::lines::TST;
use crate::tst::Station;
use crate::tst_writer::write_tst;
use std::collections::BTreeSet;

/// Lends a table made for these lines to a sound call, at times one of no station.
pub fn lend_table(rng: &mut Rng, call: &mut Call, lines: &[Vec<u8>]) {
    let mut rows = rows_for(rng, lines);
    if rng.once_in(12) {
        rows.clear();
    }
    lend(rng, call, passed(&rows));
}

/// Lends a table of exactly so many stations, those of the lines among them.
pub fn lend_large_table(rng: &mut Rng, call: &mut Call, lines: &[Vec<u8>], count: usize) {
    let strangers: Vec<Vec<u8>> = (0..count).map(|number| stranger(rng, number)).collect();
    let mut stations = passed(lines);
    for station in passed(&strangers) {
        if stations.len() < count {
            stations.insert(station);
        }
    }
    lend(rng, call, stations);
}

/// Lends a table of these stations in any order, with a code for L9 on the card.
fn lend(rng: &mut Rng, call: &mut Call, stations: BTreeSet<Station>) {
    let mut stations: Vec<Station> = stations.into_iter().collect();
    rng.shuffle(&mut stations);
    call.tst = write_tst(&stations);
    if rng.once_in(2) {
        fill_free_columns(rng, &mut call.tst);
    }
    call.card.extend(rng.text(ACTOR_CHARACTERS, 2));
}

/// The stations that TIF lines pass, each once; those that no table can have are
/// left out.
fn passed(lines: &[Vec<u8>]) -> BTreeSet<Station<'_>> {
    let all = lines.iter().map(|line| Station::passed(line));
    all.filter(Station::is_in_form).collect()
}

/// TIF lines whose stations make up a table: most lines themselves, the others
/// with one part off or not at all, and some strangers.
fn rows_for(rng: &mut Rng, lines: &[Vec<u8>]) -> Vec<Vec<u8>> {
    let mut rows: Vec<Vec<u8>> = Vec::new();
    for line in lines {
        match rng.below(16) {
            0 => rows.push(with_byte_off(rng, line, body::EXIT_ACTOR)),
            1 => rows.push(with_byte_off(rng, line, body::STATION)),
            2 => rows.push(with_byte_off(rng, line, body::LANE)),
            3 => rows.push(with_station_and_lane_swapped(line)),
            4 => rows.extend([body::STATION, body::LANE].map(|off| with_byte_off(rng, line, off))),
            5 => {}
            _ => rows.push(line.clone()),
        }
    }
    let strangers = rng.below(4);
    rows.extend((0..strangers).map(|number| stranger(rng, number)));
    rows
}

fn with_byte_off(rng: &mut Rng, line: &[u8], columns: Columns) -> Vec<u8> {
    let mut off = line.to_vec();
    change_one(rng, &[columns], &mut off);
    off
}

fn with_station_and_lane_swapped(line: &[u8]) -> Vec<u8> {
    let mut swapped = line.to_vec();
    body::STATION.put(&mut swapped, body::LANE.of(line));
    body::LANE.put(&mut swapped, body::STATION.of(line));
    swapped
}

/// A line of any actor at a station and lane of this number.
fn stranger(rng: &mut Rng, number: usize) -> Vec<u8> {
    let mut line = vec![b'0'; body::WIDTH];
    body::EXIT_ACTOR.put(&mut line, &actor(rng));
    let station_and_lane = format!("{number:08}");
    body::STATION_AND_LANE.put(&mut line, station_and_lane.as_bytes());
    line
}

/// Any bytes but line feeds in the columns that no rule reads.
fn fill_free_columns(rng: &mut Rng, tst: &mut [u8]) {
    let (header, rest) = tst.split_at_mut(TST.header);
    let (lines, footer) = rest.split_at_mut(rest.len() - TST.footer);
    fill(rng, header, &tst_header::FREE);
    for line in lines.chunks_exact_mut(TST.line) {
        fill(rng, line, &tst_line::FREE);
    }
    fill(rng, footer, &tst_footer::FREE);
}

fn fill(rng: &mut Rng, part: &mut [u8], free: &[Columns]) {
    for columns in free {
        for byte in &mut part[columns.offset()..columns.last] {
            *byte = match rng.byte() {
                b'\n' => b' ',
                any => any,
            };
        }
    }
}
