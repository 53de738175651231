//! A judge with a fault is found out, and the call that shows it is small.

use compare::run::compare_calls;
use compare::state::State;
use compare::subject::{Subject, LIBRARY};
use quindaf::lent::{Read, Written};
use reference::call::Call;
use reference::generator::limits::rare_limit;

const SEEDS: std::ops::Range<u64> = 0..400;

/// The function that takes a station table.
type JudgeWith = fn(Read, &[u8], Written) -> u32;

fn call_of(read: &Read, tst: &[u8], written: &Written) -> Call {
    Call {
        name: read.name.to_vec(),
        reception: read.received.to_vec(),
        card: read.card.to_vec(),
        received_names: read.names.to_vec(),
        book: read.book.to_vec(),
        debits: read.debits.to_vec(),
        marks: written.marks.to_vec(),
        tif: read.tif.to_vec(),
        tst: tst.to_vec(),
        records_lent: read.room,
        output_length: written.out.len(),
    }
}

/// The reference as a judge on lent memory, with a fault put in at the end.
fn with_fault(read: Read, tst: &[u8], written: Written, fault: fn(&Call, &mut State)) -> u32 {
    let call = call_of(&read, tst, &written);
    let before = State {
        answer: 0,
        marks: written.marks.to_vec(),
        words: Box::new(*written.words),
        out: written.out.to_vec(),
        summary: *written.summary,
    };
    let mut after = before.expected(&call);
    fault(&call, &mut after);
    written.marks.copy_from_slice(&after.marks);
    written.words.copy_from_slice(&*after.words);
    written.out.copy_from_slice(&after.out);
    *written.summary = after.summary;
    after.answer
}

fn sound(read: Read, tst: &[u8], written: Written) -> u32 {
    with_fault(read, tst, written, |_, _| ())
}

fn sound_without_table(read: Read, written: Written) -> u32 {
    sound(read, &[], written)
}

/// The reference in the place of the library's judging functions.
const SOUND: Subject = Subject {
    judge: sound_without_table,
    judge_with: sound,
    ..LIBRARY
};

/// The report on a faulty judge: its first difference, and the smallest call.
fn report(judge_with: JudgeWith) -> String {
    let subject = Subject {
        judge_with,
        ..SOUND
    };
    compare_calls(&subject, SEEDS).expect("the fault is found")
}

fn bytes_of(report: &str, part: &str) -> usize {
    let row = report.lines().find_map(|row| row.strip_prefix(part));
    let bytes = row.and_then(|row| row.strip_suffix(" bytes"));
    bytes.expect("a row of the part").parse().expect("a number")
}

#[test]
fn no_fault_no_report() {
    assert_eq!(compare_calls(&SOUND, 0..60), None);
}

#[test]
fn a_refusal_told_as_another() {
    fn judge(read: Read, tst: &[u8], written: Written) -> u32 {
        with_fault(read, tst, written, |_, state| {
            if let Some(word) = state.words.iter_mut().find(|word| **word == 7) {
                *word = 6;
            }
        })
    }
    let report = report(judge);
    assert!(report.contains("expected 7, found 6"), "{report}");
    assert_eq!(bytes_of(&report, "tif: "), 269 + 810, "{report}");
    assert_eq!(bytes_of(&report, "names: "), 0, "{report}");
    assert_eq!(bytes_of(&report, "debits: "), 0, "{report}");
    assert_eq!(bytes_of(&report, "book: "), 2, "{report}");
    assert_eq!(bytes_of(&report, "tst: "), 0, "{report}");
}

/// A table that is needed stays, with no station more than that.
#[test]
fn an_unknown_station_told_as_another_refusal() {
    fn judge(read: Read, tst: &[u8], written: Written) -> u32 {
        with_fault(read, tst, written, |_, state| {
            if let Some(word) = state.words.iter_mut().find(|word| **word == 9) {
                *word = 3;
            }
        })
    }
    let report = report(judge);
    assert!(report.contains("expected 9, found 3"), "{report}");
    assert_eq!(bytes_of(&report, "tif: "), 269 + 810, "{report}");
    assert_eq!(bytes_of(&report, "tst: "), 192, "{report}");
    assert_eq!(bytes_of(&report, "card: "), 18, "{report}");
}

/// A table out of form is made smaller too.
#[test]
fn a_table_of_one_station_out_of_form() {
    fn judge(read: Read, tst: &[u8], written: Written) -> u32 {
        with_fault(read, tst, written, |call, state| {
            if state.answer == 8 && call.tst.len() == 192 + 233 {
                state.answer = 5;
            }
        })
    }
    let report = report(judge);
    assert!(report.contains("answer: expected 8, found 5"), "{report}");
    assert_eq!(bytes_of(&report, "tst: "), 192 + 233, "{report}");
    assert_eq!(bytes_of(&report, "tif: "), 269, "{report}");
}

/// The function without a table is compared for itself.
#[test]
fn a_fault_without_a_table_only() {
    fn judge(read: Read, written: Written) -> u32 {
        with_fault(read, &[], written, |_, state| state.summary[8] ^= 1)
    }
    let subject = Subject { judge, ..SOUND };
    let report = compare_calls(&subject, SEEDS).expect("the fault is found");
    let told = "by the function without a table: summary[8]";
    assert!(report.contains(told), "{report}");
    assert_eq!(bytes_of(&report, "tst: "), 0, "{report}");
}

#[test]
fn marks_set_before_the_room_is_tested() {
    fn judge(read: Read, tst: &[u8], written: Written) -> u32 {
        with_fault(read, tst, written, |_, state| {
            if state.answer == 7 {
                state.marks.fill(1);
            }
        })
    }
    let report = report(judge);
    assert!(report.contains("marks[0]: expected 0, found 1"), "{report}");
    assert_eq!(bytes_of(&report, "debits: "), 810, "{report}");
    assert_eq!(bytes_of(&report, "tif: "), 269, "{report}");
}

#[test]
fn a_byte_past_the_tic() {
    fn judge(read: Read, tst: &[u8], written: Written) -> u32 {
        with_fault(read, tst, written, |_, state| {
            if let Some(last) = state.out.get_mut(324..).and_then(<[u8]>::last_mut) {
                *last ^= 1;
            }
        })
    }
    assert!(report(judge).contains("output["));
}

#[test]
fn the_seeds_tried_here_are_small() {
    let large = SEEDS.filter(|&seed| rare_limit(seed).is_some());
    assert!(large.count() <= 3);
}
