//! Station tables of given stations, in form.

use crate::columns::{tst_footer as footer, tst_header as header, tst_line as line};
use crate::text::padded;
use crate::tst::{Station, VERSION};

/// A table of these stations, zeros in every free column.
pub fn write_tst(stations: &[Station]) -> Vec<u8> {
    let mut tst = header_text(stations.len());
    for station in stations {
        tst.extend(line_text(station));
    }
    tst.extend(footer_text());
    tst
}

fn header_text(records: usize) -> Vec<u8> {
    let mut text = vec![b'0'; header::WIDTH];
    let count = padded(records as u64, header::RECORDS.width());
    header::RECORDS.put(&mut text, &count);
    header::VERSION.put(&mut text, VERSION);
    header::LINE_FEED.put(&mut text, b"\n");
    text
}

/// A line of the table, as many bytes as it has columns.
pub fn line_text(station: &Station) -> Vec<u8> {
    let mut text = vec![b'0'; line::WIDTH];
    line::REGISTER.put(&mut text, b"1");
    line::ACTOR.put(&mut text, station.actor);
    line::STATION.put(&mut text, station.station);
    line::LANE.put(&mut text, station.lane);
    line::LINE_FEED.put(&mut text, b"\n");
    text
}

fn footer_text() -> Vec<u8> {
    let mut text = vec![b'0'; footer::WIDTH];
    footer::REGISTER.put(&mut text, b"2");
    footer::LINE_FEED.put(&mut text, b"\n");
    text
}
