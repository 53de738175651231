//! What holds for every answered call, over generated ones.

mod common;

use reference::acceptance::Side;
use reference::call::{judge, Answer, Call};
use reference::generator::book_model::BookModel;
use reference::generator::generate;
use reference::generator::limits::rare_limit;
use reference::generator::rng::Rng;
use reference::generator::world::World;
use reference::verdict::Verdict;

/// Small generated calls with their answers.
fn answered() -> impl Iterator<Item = (Call, Answer)> {
    (0..6_000)
        .filter(|&seed| rare_limit(seed).is_none())
        .map(generate)
        .filter_map(|call| judge(&call).ok().map(|answer| (call, answer)))
}

#[test]
fn accepted_and_refused_make_up_the_whole() {
    for (_, answer) in answered() {
        let summary = answer.summary;
        assert_eq!(summary.accepted.0 + summary.refused.0, summary.lines.0);
        let amounts = summary.accepted_amount.0 + summary.refused_amount.0;
        assert_eq!(amounts, summary.total.0);
    }
}

/// Only the debits that credits took are marked anew, each once.
#[test]
fn marks_change_for_taken_debits_only() {
    for (call, answer) in answered() {
        let mut marks = call.marks.clone();
        for record in &answer.records {
            if let Verdict::Credited { debit } = record.verdict {
                assert_eq!(marks[debit - 1], 0);
                marks[debit - 1] = 1;
            }
        }
        assert_eq!(marks, answer.marks);
    }
}

/// 02 to 05: no record, nothing counted, marks as they were, 324 bytes.
#[test]
fn a_file_refused_as_a_whole_changes_nothing() {
    for (call, answer) in answered() {
        if answer.summary.acceptance.is_line_by_line() {
            continue;
        }
        assert!(answer.records.is_empty());
        assert_eq!(answer.marks, call.marks);
        assert_eq!(answer.tic.len(), 324);
        assert_eq!(answer.summary.total.0, 0);
    }
}

/// A file's verdicts are those of its side.
#[test]
fn verdicts_fit_the_side() {
    for (_, answer) in answered() {
        for record in &answer.records {
            let debit_file = answer.summary.side == Some(Side::Debit);
            let fits = match record.verdict {
                Verdict::Covered(_) => debit_file,
                Verdict::Credited { .. } => !debit_file,
                Verdict::Refused(refusal) if debit_file => refusal.number() != 8,
                Verdict::Refused(refusal) => ![6, 7].contains(&refusal.number()),
            };
            assert!(fits, "{:?}", record.verdict);
        }
    }
}

/// Two books that differ only in lease references give the same everything.
#[test]
fn lease_references_reach_no_answer() {
    for seed in 0..1_000 {
        let mut rng = Rng::new(seed, 30);
        let world = World::small(&mut rng);
        let mut call = world.call(&mut rng);
        call.output_length = 1_000_000;
        call.records_lent = 100;
        let other = Call {
            book: with_other_leases(&mut rng, &world.book).render(),
            ..call.clone()
        };
        assert_eq!(judge(&call), judge(&other));
    }
}

/// In a DEB file the table refuses lines and changes nothing else: without it
/// every line but those with L9 has the verdict it had.
#[test]
fn a_table_only_refuses() {
    let mut refused = 0;
    for (call, answer) in answered() {
        if call.tst.is_empty() || answer.summary.side != Some(Side::Debit) {
            continue;
        }
        let without = Call {
            card: call.card[..16].to_vec(),
            tst: Vec::new(),
            output_length: 1_000_000,
            ..call
        };
        let without = judge(&without).expect("a sound call with room").words();
        for (word, before) in answer.words().into_iter().zip(without) {
            assert!(word == 9 || word == before);
            assert_ne!(before, 9);
            refused += usize::from(word == 9);
        }
    }
    assert!(refused > 100, "{refused}");
}

fn with_other_leases(rng: &mut Rng, book: &BookModel) -> BookModel {
    let mut other = book.clone();
    for agreement in &mut other.agreements {
        agreement.lease = rng.bytes(12);
    }
    other
}
