//! A small world to read and to change: the worked example of 01.

use crate::acceptance::Side;
use crate::call::Call;
use crate::columns::{body, Columns};
use crate::generator::book_model::{AgreementModel, BookModel, PeriodModel};
use crate::text::padded;
use crate::tif_writer::{write_tif, HeaderValues};
use crate::tst::Station;
use crate::tst_writer::write_tst;

pub const NAME: &[u8] = b"TIF100123202606150001_20000B_130001";
pub const SENDER: &[u8] = b"100123";
pub const RECEPTION: &[u8] = b"20260616020000";
/// Codes of 004 (3.2) for L1 to L8.
pub const CARD: &[u8] = b"0909081004140713";
/// The same with the code for L9, "not a legal Toll Station/lane Identification".
pub const CARD_WITH_TABLE: &[u8] = b"090908100414071308";
pub const PAN: &[u8] = b"9578000100000000017";
pub const UNKNOWN_PAN: &[u8] = b"9578000100000000025";
pub const BLANK_PAN: &[u8] = b"                   ";
pub const PLATE: &[u8] = b"AB12345   NO";
pub const BLANK_PLATE: &[u8] = b"            ";
/// The period of 01's worked lines, and the one that follows it without an end.
pub const START: &[u8] = b"20260101000000";
pub const END: &[u8] = b"20260301000000";
pub const NO_END: &[u8] = b"99999999999999";

/// What distinguishes a passage: who, when, where, with which plate, how much.
#[derive(Clone, Debug, PartialEq, Eq)]
pub struct Passage {
    pub pan: Vec<u8>,
    pub moment: Vec<u8>,
    pub actor: Vec<u8>,
    pub station_and_lane: Vec<u8>,
    /// Detected plate and nation, twelve bytes.
    pub detected: Vec<u8>,
    pub amount: u64,
}

/// A passage that the example's book covers, by PAN and by plate.
pub fn passage() -> Passage {
    Passage {
        pan: PAN.to_vec(),
        moment: b"20260614081530".to_vec(),
        actor: SENDER.to_vec(),
        station_and_lane: b"00420002".to_vec(),
        detected: PLATE.to_vec(),
        amount: 5_000,
    }
}

/// Writes a passage into a line; four fifths of the amount are the fee without VAT.
pub fn put_passage(line: &mut [u8], kind: &[u8], passage: &Passage) {
    let fee = passage.amount * 4 / 5;
    let mut put = |columns: Columns, text: &[u8]| columns.put(line, text);
    put(body::REGISTER, b"1");
    put(body::TYPE, kind);
    put(body::PAN, &passage.pan);
    put(body::EXIT_MOMENT, &passage.moment);
    put(body::EXIT_ACTOR, &passage.actor);
    put(body::STATION_AND_LANE, &passage.station_and_lane);
    put(body::FEE_WITHOUT_VAT, &padded(fee, 11));
    put(body::AMOUNT_OF_VAT, &padded(passage.amount - fee, 11));
    put(body::AMOUNT_WITH_VAT, &padded(passage.amount, 11));
    put(body::CURRENCY, b"NOK");
    put(body::DETECTED, &passage.detected);
    put(body::LINE_FEED, b"\n");
}

/// A line that passes L1 to L5 on the side of its type.
pub fn line(kind: &[u8], passage: &Passage) -> Vec<u8> {
    let mut line = vec![b'0'; body::WIDTH];
    put_passage(&mut line, kind, passage);
    body::DECLARED_PLATE.put(&mut line, &PLATE[..10]);
    body::DECLARED_NATION.put(&mut line, &PLATE[10..]);
    body::FUEL.put(&mut line, b"02N");
    body::EMISSION.put(&mut line, b"06");
    body::TARIFF_CLASS.put(&mut line, b"22");
    line
}

/// One agreement, two periods, the second beginning where the first ends.
pub fn book() -> BookModel {
    let periods = [(START, END), (END, NO_END)];
    BookModel {
        agreements: vec![AgreementModel {
            pan: PAN.to_vec(),
            lease: b"LEASE-000017".to_vec(),
            periods: periods
                .iter()
                .map(|(start, end)| PeriodModel::of_texts(PLATE, start, end))
                .collect(),
        }],
    }
}

/// A call of these lines with the example's book, no debits, and room enough.
pub fn call(side: Side, lines: &[Vec<u8>]) -> Call {
    Call {
        name: NAME.to_vec(),
        reception: RECEPTION.to_vec(),
        card: CARD.to_vec(),
        book: book().render(),
        tif: tif(side, lines),
        records_lent: 10_000,
        output_length: 10_000_000,
        ..Call::default()
    }
}

/// The example's TIF of these lines.
pub fn tif(side: Side, lines: &[Vec<u8>]) -> Vec<u8> {
    let values = HeaderValues {
        name: NAME,
        side,
        transactions: lines.len(),
        creation: b"20260615230000",
    };
    write_tif(&values, lines)
}

/// The station of the example's passage.
pub const STATION: Station = Station {
    actor: SENDER,
    station: b"0042",
    lane: b"0002",
};

/// The call with a table of these stations, and the card that goes with one.
pub fn with_table(call: Call, stations: &[Station]) -> Call {
    Call {
        card: CARD_WITH_TABLE.to_vec(),
        tst: write_tst(stations),
        ..call
    }
}

/// The worked example: amounts 5000, 12550 and 300, the second with L7.
pub fn worked_call() -> Call {
    let by_pan = passage();
    let uncovered = Passage {
        pan: UNKNOWN_PAN.to_vec(),
        moment: b"20260614114500".to_vec(),
        amount: 12_550,
        ..passage()
    };
    let by_plate = Passage {
        pan: BLANK_PAN.to_vec(),
        moment: b"20260614173011".to_vec(),
        amount: 300,
        ..passage()
    };
    let lines = [
        line(b"C1", &by_pan),
        line(b"C1", &uncovered),
        line(b"C8", &by_plate),
    ];
    call(Side::Debit, &lines)
}
