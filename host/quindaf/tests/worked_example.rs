//! The worked example and the traps, through the owned types.

use quindaf::{
    Acceptance, Book, Call, CallFault, CodeCard, FileName, Gross, Judged, Mark, Moment, Net,
    NoRoom, OpenDebits, Refusal, Side, StationTable, Tic, TicFault, Verdict,
};
use reference::columns::body;
use reference::example::{self, line, passage, worked_call};
use reference::tst::Station;
use reference::tst_writer::write_tst;

fn call(tif: Vec<u8>) -> Call {
    Call {
        name: FileName::try_from(example::NAME).expect("35 bytes"),
        received: Moment::try_from(example::RECEPTION).expect("14 bytes"),
        card: CodeCard(example::CARD.to_vec()),
        names: Vec::new(),
        book: Book(example::book().render()),
        tif,
        stations: StationTable::none(),
    }
}

/// The same call with a table of these stations, and a card of nine codes.
fn with_table(call: Call, stations: &[Station]) -> Call {
    Call {
        card: CodeCard(example::CARD_WITH_TABLE.to_vec()),
        stations: StationTable(write_tst(stations)),
        ..call
    }
}

fn worked() -> (Call, Judged) {
    let call = call(worked_call().tif);
    let judged = call.judge(&mut OpenDebits::new()).expect("a sound call");
    (call, judged)
}

fn verdicts(judged: &Judged) -> Vec<Verdict> {
    let records = judged.records.iter();
    records.map(|record| record.verdict).collect()
}

fn debit() -> [u8; 810] {
    line(b"C1", &passage()).try_into().expect("810 bytes")
}

/// Three equal credits, and two free debits that agree with them.
fn credits() -> (Call, OpenDebits) {
    let credit = line(b"R2", &passage());
    let tif = example::tif(reference::acceptance::Side::Credit, &vec![credit; 3]);
    let debits = [(debit(), Mark::Free), (debit(), Mark::Free)];
    (call(tif), debits.into_iter().collect())
}

#[test]
fn the_worked_example() {
    let (_, judged) = worked();
    let summary = judged.summary;
    assert_eq!(summary.acceptance, Acceptance::Partial);
    assert_eq!(summary.acceptance.to_string(), "01");
    assert_eq!(summary.side, Some(Side::Debit));
    assert_eq!(
        (summary.lines, summary.accepted, summary.refused),
        (3, 2, 1)
    );
    assert_eq!(summary.total, Gross(17_850));
    assert_eq!(summary.accepted_amount, Gross(5_300));
    assert_eq!(summary.refused_amount, Gross(12_550));
    let covered = Verdict::Covered {
        agreement: 1,
        period: 2,
    };
    assert_eq!(
        verdicts(&judged),
        [covered, Verdict::Refused(Refusal::Uncovered), covered]
    );
    assert_eq!(judged.records[1].number, 2);
    assert_eq!(judged.records[1].amount, Gross(12_550));
    assert_eq!(judged.records[1].fee, Net(10_040));
}

#[test]
fn the_tic_reads_back() {
    let (call, judged) = worked();
    let tic = Tic::read(judged.tic.clone()).expect("a TIC that reads");
    let values = tic.values();
    assert_eq!(values.acceptance, Acceptance::Partial);
    assert_eq!((values.accepted, values.rejected, values.listed), (2, 1, 1));
    assert_eq!(values.rejected_amount, Gross(12_550));
    let listed = tic.listed(1).expect("a listed line");
    assert_eq!(listed.code, b"07");
    let second = 162 + 810;
    assert_eq!(listed.line[..], call.tif[second..second + 809]);
    assert_eq!(
        (tic.listed(0), tic.listed(2), tic.listed(usize::MAX)),
        (None, None, None)
    );
    assert_eq!(tic.rewritten(), judged.tic);
    assert_eq!(tic.into_bytes(), judged.tic);
}

#[test]
fn a_tic_that_does_not_read() {
    let (_, judged) = worked();
    let broken = |place: usize, byte: u8| {
        let mut tic = judged.tic.clone();
        tic[place] = byte;
        Tic::read(tic).map(|tic| tic.values())
    };
    assert_eq!(Tic::read(Vec::new()), Err(TicFault::LengthOrLineFeeds));
    assert_eq!(broken(195, b' '), Err(TicFault::LengthOrLineFeeds));
    assert_eq!(broken(0, b'1'), Err(TicFault::Header));
    assert_eq!(broken(194, b'0'), Err(TicFault::Counts));
    assert_eq!(broken(196, b'2'), Err(TicFault::ListedLine));
    assert_eq!(broken(196 + 812, b'1'), Err(TicFault::Footer));
}

#[test]
fn three_credits_for_two_debits() {
    let (call, mut debits) = credits();
    let judged = call.judge(&mut debits).expect("a sound call");
    let taken = |debit: usize| Verdict::Credited { debit };
    assert_eq!(
        verdicts(&judged),
        [taken(1), taken(2), Verdict::Refused(Refusal::NoDebit)]
    );
    assert!(debits.marks().all(|mark| mark == Mark::Taken));
    debits.drop_taken();
    assert!(debits.is_empty());
}

/// Room is asked for to the byte and to the record; E7 changes no mark, no byte.
#[test]
fn a_lent_output() {
    let (call, debits) = credits();
    let needed = 324 + 812;
    for (length, room) in [(needed - 1, 3), (needed, 2), (0, 0)] {
        let (mut lent, mut out) = (debits.clone(), vec![b'#'; length]);
        let refused = call.judge_into(&mut lent, room, &mut out);
        assert_eq!(refused, Err(CallFault::Room));
        assert_eq!(lent, debits);
        assert!(out.iter().all(|&byte| byte == b'#'));
    }
    let (mut lent, mut out) = (debits.clone(), vec![b'#'; needed + 5]);
    let judged = call
        .judge_into(&mut lent, 3, &mut out)
        .expect("enough room");
    assert_eq!(
        (judged.tic.len(), &*judged.rest),
        (needed, b"#####".as_slice())
    );
    assert_ne!(lent, debits);
}

#[test]
fn a_lent_output_for_a_tic() {
    let (_, judged) = worked();
    let tic = Tic::read(judged.tic).expect("a TIC that reads");
    let length = tic.bytes().len();
    let mut out = vec![b'#'; length + 3];
    assert_eq!(tic.rewrite_into(&mut out[..length - 1]), Err(NoRoom));
    assert!(out.iter().all(|&byte| byte == b'#'));
    assert_eq!(tic.rewrite_into(&mut out), Ok(length));
    assert_eq!(out, [tic.bytes(), b"###"].concat());
}

#[test]
fn refused_calls() {
    type Spoil = fn(&mut Call, &mut OpenDebits);
    let spoilt: [(Spoil, CallFault); 7] = [
        (|call, _| call.name.0[0] = b'X', CallFault::Name),
        (|call, _| call.received.0[4] = b'2', CallFault::Reception),
        (|call, _| call.card.0[15] = b'a', CallFault::Card),
        (|call, _| call.stations.0 = write_tst(&[]), CallFault::Card),
        (|call, _| call.book.0.clear(), CallFault::Book),
        (
            |_, debits| debits.push([b'1'; 810], Mark::Free),
            CallFault::Debits,
        ),
        (
            |call, _| {
                *call = with_table(call.clone(), &[]);
                call.stations.0.pop();
            },
            CallFault::Stations,
        ),
    ];
    for (spoil, fault) in spoilt {
        let (mut call, mut debits) = credits();
        spoil(&mut call, &mut debits);
        let before = debits.clone();
        assert_eq!(call.judge(&mut debits), Err(fault));
        assert_eq!(debits, before);
        assert!(fault
            .to_string()
            .starts_with(&format!("E{}: ", fault.number())));
    }
}

#[test]
fn a_name_received_before() {
    let (mut call, _) = worked();
    call.names = vec![FileName([b'x'; 35]), call.name];
    let judged = call.judge(&mut OpenDebits::new()).expect("a sound call");
    assert_eq!(judged.summary.acceptance, Acceptance::AlreadyReceived);
    assert_eq!((judged.records.len(), judged.tic.len()), (0, 324));
}

/// Files of any length find room enough.
#[test]
fn files_of_every_length() {
    let whole = worked_call().tif;
    for length in [
        0, 1, 75, 76, 161, 162, 268, 269, 300, 1_078, 1_079, 1_080, 2_698,
    ] {
        let judged = call(whole[..length].to_vec()).judge(&mut OpenDebits::new());
        let summary = judged.expect("a sound call").summary;
        assert_eq!(summary.acceptance, Acceptance::Miscellaneous);
        assert_eq!(summary.side.is_some(), length >= 76);
    }
}

/// A passage at the table's station, and one through a lane that it does not have.
#[test]
fn a_station_table() {
    let mut elsewhere = line(b"C1", &passage());
    body::LANE.put(&mut elsewhere, b"0003");
    let lines = [line(b"C1", &passage()), elsewhere];
    let tif = example::tif(reference::acceptance::Side::Debit, &lines);
    let judged = |call: Call| call.judge(&mut OpenDebits::new()).expect("a sound call");
    let known = judged(with_table(call(tif.clone()), &[example::STATION]));
    let covered = Verdict::Covered {
        agreement: 1,
        period: 2,
    };
    let unknown = Verdict::Refused(Refusal::Station);
    assert_eq!(verdicts(&known), [covered, unknown]);
    let tic = Tic::read(known.tic).expect("a TIC that reads");
    assert_eq!(tic.listed(1).expect("a listed line").code, b"08");
    let none_known = judged(with_table(call(tif.clone()), &[]));
    assert_eq!(verdicts(&none_known), [unknown, unknown]);
    assert_eq!(verdicts(&judged(call(tif))), [covered, covered]);
}

/// The stack that is asked for is enough, with a table and without.
#[test]
fn a_small_stack() {
    for stations in [None, Some([example::STATION])] {
        let small = std::thread::Builder::new().stack_size(128 * 1024);
        let lines = move || {
            let call = worked().0;
            let call = match stations {
                None => call,
                Some(stations) => with_table(call, &stations),
            };
            let judged = call.judge(&mut OpenDebits::new());
            judged.expect("a sound call").summary.lines
        };
        let judged = small.spawn(lines).expect("a thread");
        assert_eq!(judged.join().expect("the call returns"), 3);
    }
}
