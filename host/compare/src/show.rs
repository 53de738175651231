//! Calls and TICs as text, to be read and to be tried again.

use reference::call::Call;
use reference::generator::tics::TicQuestion;
use std::fmt::Write;

/// A run of one byte this long or longer is written with its length.
const LONG_RUN: usize = 8;

/// The call, part by part; a part of several lines has a row for each.
pub fn shown_call(call: &Call) -> String {
    let mut text = String::new();
    shown_part(&mut text, "name", &call.name, usize::MAX);
    shown_part(&mut text, "received", &call.reception, usize::MAX);
    shown_part(&mut text, "card", &call.card, usize::MAX);
    shown_part(&mut text, "names", &call.received_names, 35);
    shown_part(&mut text, "book", &call.book, usize::MAX);
    shown_part(&mut text, "debits", &call.debits, 810);
    shown_part(&mut text, "marks", &call.marks, usize::MAX);
    shown_part(&mut text, "tif", &call.tif, usize::MAX);
    shown_part(&mut text, "tst", &call.tst, usize::MAX);
    let (records, output) = (call.records_lent, call.output_length);
    let _ = writeln!(text, "room: {records} records, {output} output bytes");
    text
}

/// The TIC with what is asked of it.
pub fn shown_question(question: &TicQuestion) -> String {
    let mut text = String::new();
    shown_part(&mut text, "tic", &question.tic, usize::MAX);
    let (k, room) = (question.k, question.output_length);
    let _ = writeln!(text, "line asked for: {k}; room: {room} output bytes");
    text
}

fn shown_part(text: &mut String, name: &str, bytes: &[u8], width: usize) {
    let _ = writeln!(text, "{name}: {} bytes", bytes.len());
    for row in bytes.chunks(width) {
        for line in row.split_inclusive(|&byte| byte == b'\n') {
            let _ = writeln!(text, "    {}", shown_bytes(line));
        }
    }
}

/// Bytes as in a byte string, long runs of one byte as `<byte times count>`.
pub fn shown_bytes(bytes: &[u8]) -> String {
    let runs = bytes.chunk_by(|one, next| one == next);
    runs.map(|run| {
        let byte = run[0].escape_ascii().to_string();
        if run.len() < LONG_RUN {
            byte.repeat(run.len())
        } else {
            format!("<{byte} times {}>", run.len())
        }
    })
    .collect()
}

#[cfg(test)]
mod tests {
    use super::shown_bytes;

    #[test]
    fn long_runs_are_counted() {
        assert_eq!(shown_bytes(b"1C1\n"), "1C1\\n");
        assert_eq!(shown_bytes(b"a000000000\xFF"), "a<0 times 9>\\xff");
    }
}
