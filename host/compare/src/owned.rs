//! The same calls through the owned types of `quindaf`.

use crate::state::{different, side_number};
use quindaf::{Book, CodeCard, FileName, Mark, Moment, OpenDebits, StationTable};
use reference::call::{judge, Answer, Call, CallFault, Record};
use reference::verdict::Verdict;

/// The call in owned types, or nothing where a length or a mark is out of form
/// and so cannot be said in them.
pub fn owned(call: &Call) -> Option<(quindaf::Call, OpenDebits)> {
    let names = call.received_names.chunks(35);
    let names: Option<Vec<FileName>> = names.map(|name| name.try_into().ok()).collect();
    let owned = quindaf::Call {
        name: FileName::try_from(call.name.as_slice()).ok()?,
        received: Moment::try_from(call.reception.as_slice()).ok()?,
        card: CodeCard(call.card.clone()),
        names: names?,
        book: Book(call.book.clone()),
        tif: call.tif.clone(),
        stations: StationTable(call.tst.clone()),
    };
    Some((owned, owned_debits(call)?))
}

fn owned_debits(call: &Call) -> Option<OpenDebits> {
    let lines = call.debits.chunks(810);
    if lines.len() != call.marks.len() {
        return None;
    }
    let debit = |(line, &mark): (&[u8], &u8)| Some((line.try_into().ok()?, owned_mark(mark)?));
    lines.zip(&call.marks).map(debit).collect()
}

fn owned_mark(mark: u8) -> Option<Mark> {
    [Mark::Free, Mark::Taken].get(usize::from(mark)).copied()
}

/// The difference between the reference and the owned types; none where the call
/// cannot be said in them.
pub fn owned_difference(call: &Call) -> Option<String> {
    let (owned, mut debits) = owned(call)?;
    let before = debits.clone();
    let judged = owned.judge(&mut debits);
    let expected = judge(&Call {
        records_lent: usize::MAX,
        output_length: usize::MAX,
        ..call.clone()
    });
    match (expected, judged) {
        (Err(fault), Err(found)) => different("owned fault", &number(fault), &found.number())
            .or_else(|| different("owned marks", &before, &debits)),
        (Ok(answer), Ok(judged)) => answer_difference(&answer, &judged, &debits),
        (expected, judged) => Some(format!(
            "owned: expected an answer {}, found one {}",
            expected.is_ok(),
            judged.is_ok()
        )),
    }
}

fn number(fault: CallFault) -> u32 {
    fault.number() as u32
}

fn answer_difference(
    answer: &Answer,
    judged: &quindaf::Judged,
    debits: &OpenDebits,
) -> Option<String> {
    let marks: Vec<u8> = debits.marks().map(|mark| mark as u8).collect();
    let records: Vec<quindaf::Record> = answer.records.iter().map(owned_record).collect();
    different("owned summary", &owned_summary(answer), &judged.summary)
        .or_else(|| different("owned marks", &answer.marks, &marks))
        .or_else(|| different("owned records", &records, &judged.records))
        .or_else(|| different("owned TIC", &answer.tic, &judged.tic))
}

fn owned_summary(answer: &Answer) -> quindaf::Summary {
    let summary = &answer.summary;
    quindaf::Summary {
        acceptance: owned_acceptance(summary.acceptance.number()),
        side: owned_side(side_number(summary.side)),
        lines: summary.lines.0 as usize,
        accepted: summary.accepted.0 as usize,
        refused: summary.refused.0 as usize,
        total: quindaf::Gross(summary.total.0),
        accepted_amount: quindaf::Gross(summary.accepted_amount.0),
        refused_amount: quindaf::Gross(summary.refused_amount.0),
    }
}

/// The acceptance of a number, 0 to 5.
pub fn owned_acceptance(number: u64) -> quindaf::Acceptance {
    use quindaf::Acceptance::*;
    let all = [
        Full,
        Partial,
        AlreadyReceived,
        CountsDiffer,
        TotalDiffers,
        Miscellaneous,
    ];
    all[number as usize]
}

/// 0 neither, 1 CRE, 2 DEB.
pub fn owned_side(number: u64) -> Option<quindaf::Side> {
    use quindaf::Side;
    [None, Some(Side::Credit), Some(Side::Debit)][number as usize]
}

fn owned_record(record: &Record) -> quindaf::Record {
    quindaf::Record {
        number: record.number,
        amount: quindaf::Gross(record.amount.0),
        verdict: owned_verdict(record.verdict),
        fee: quindaf::Net(record.fee.0),
    }
}

fn owned_verdict(verdict: Verdict) -> quindaf::Verdict {
    use quindaf::Refusal::*;
    let refusals = [
        Type, Form, Actor, Vehicle, Plate, Repeated, Uncovered, NoDebit, Station,
    ];
    match verdict {
        Verdict::Covered(place) => quindaf::Verdict::Covered {
            agreement: place.agreement,
            period: place.period,
        },
        Verdict::Credited { debit } => quindaf::Verdict::Credited { debit },
        Verdict::Refused(refusal) => quindaf::Verdict::Refused(refusals[refusal.number() - 1]),
    }
}
