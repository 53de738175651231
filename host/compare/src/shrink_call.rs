//! Smaller calls and TICs that still show a difference: fewer lines, names,
//! debits, agreements, periods and stations, and the plainest room.

use crate::shrink::fewest;
use reference::book::Book;
use reference::call::{card_width, Call};
use reference::columns::{body, tif_footer, tif_header, tst_header};
use reference::generator::book_model::{AgreementModel, BookModel, PeriodModel};
use reference::generator::room::needed;
use reference::generator::tics::TicQuestion;
use reference::lines::{Layout, MOST_LINES, TIF, TST};
use reference::text::{all_zeros, digits_value, padded};
use reference::tic_reader::read;

/// Room beyond what the answer needs, or short of it.
#[derive(Clone, Copy)]
struct Spare {
    output: isize,
    records: isize,
}

impl Spare {
    fn of(call: &Call) -> Spare {
        let (output, records) = needs(call);
        Spare {
            output: call.output_length as isize - output,
            records: call.records_lent as isize - records,
        }
    }

    /// The call with as much to spare, or as much too little.
    fn lend(self, call: &Call) -> Call {
        let (output, records) = needs(call);
        Call {
            output_length: (output + self.output).max(0) as usize,
            records_lent: (records + self.records).max(0) as usize,
            ..call.clone()
        }
    }
}

/// Output and records that the answer needs; nothing for a refused call.
fn needs(call: &Call) -> (isize, isize) {
    let needed = needed(&mut call.clone());
    needed.map_or((0, 0), |needed| {
        (needed.output as isize, needed.records as isize)
    })
}

/// The smallest call found for which the question still answers yes. Its room is
/// as far from what is needed as it was, or just enough.
pub fn smallest_call(call: &Call, differs: &mut dyn FnMut(&Call) -> bool) -> Call {
    let spare = Spare::of(call);
    let mut smallest = call.clone();
    loop {
        let steps = [
            fewer_stations,
            fewer_lines,
            fewer_names,
            fewer_debits,
            smaller_book,
        ];
        let mut still_differs = |call: &Call| differs(&spare.lend(call));
        let smaller = steps.iter().fold(smallest.clone(), |call, step| {
            step(&call, &mut still_differs)
        });
        if smaller == smallest {
            return plain_room(spare.lend(&smallest), differs);
        }
        smallest = smaller;
    }
}

/// A file whose lines are made fewer, and how its other parts are made to agree
/// with those that are left.
struct Rows<'a> {
    file: &'a [u8],
    layout: Layout,
    make_agree: fn(&mut [u8], usize, &[&[u8]]),
}

impl Rows<'_> {
    /// The file with fewer lines, header and footer agreeing with them if the
    /// difference stays so, else as they are.
    fn fewer(&self, differs: &mut dyn FnMut(&[u8]) -> bool) -> Vec<u8> {
        let (header, rest) = self.file.split_at(self.layout.header.min(self.file.len()));
        let footer_place = rest.len().saturating_sub(self.layout.footer);
        let (lines, footer) = rest.split_at(footer_place);
        let lines: Vec<&[u8]> = lines.chunks(self.layout.line).collect();
        let with_lines = |lines: &[&[u8]], agreeing: bool| {
            let mut file = [header, &lines.concat(), footer].concat();
            if agreeing && file.len() >= self.layout.length(0) {
                let place = file.len() - footer.len();
                (self.make_agree)(&mut file, place, lines);
            }
            file
        };
        for agreeing in [true, false] {
            let left = fewest(&lines, |left| differs(&with_lines(left, agreeing)));
            if left.len() < lines.len() {
                return with_lines(&left, agreeing);
            }
        }
        self.file.to_vec()
    }
}

fn fewer_lines(call: &Call, differs: &mut dyn FnMut(&Call) -> bool) -> Call {
    let with_tif = |tif: &[u8]| Call {
        tif: tif.to_vec(),
        ..call.clone()
    };
    let rows = Rows {
        file: &call.tif,
        layout: TIF,
        make_agree: make_tif_agree,
    };
    with_tif(&rows.fewer(&mut |tif| differs(&with_tif(tif))))
}

/// Counts and total of these lines.
fn make_tif_agree(tif: &mut [u8], footer_place: usize, lines: &[&[u8]]) {
    let amount = |line: &&[u8]| digits_value(body::AMOUNT_WITH_VAT.found_in(line)?);
    let total = lines.iter().filter_map(amount).sum();
    let count = padded(lines.len() as u64, tif_header::RECORDS.width());
    tif_header::RECORDS.put(tif, &count);
    if !all_zeros(tif_header::TRANSACTIONS.of(tif)) {
        tif_header::TRANSACTIONS.put(tif, &count);
    }
    let footer = &mut tif[footer_place..];
    tif_footer::TOTAL.put(footer, &padded(total, tif_footer::TOTAL.width()));
}

/// No station table and a card without its code, or else fewer stations.
fn fewer_stations(call: &Call, differs: &mut dyn FnMut(&Call) -> bool) -> Call {
    if call.tst.is_empty() {
        return call.clone();
    }
    let with_tst = |tst: &[u8]| Call {
        tst: tst.to_vec(),
        ..call.clone()
    };
    let mut without = with_tst(&[]);
    without.card.truncate(card_width(false));
    if differs(&without) {
        return without;
    }
    let rows = Rows {
        file: &call.tst,
        layout: TST,
        make_agree: |tst, _, lines| {
            let count = padded(lines.len() as u64, tst_header::RECORDS.width());
            tst_header::RECORDS.put(tst, &count);
        },
    };
    with_tst(&rows.fewer(&mut |tst| differs(&with_tst(tst))))
}

fn fewer_names(call: &Call, differs: &mut dyn FnMut(&Call) -> bool) -> Call {
    let names: Vec<&[u8]> = call.received_names.chunks(35).collect();
    let with_names = |names: &[&[u8]]| Call {
        received_names: names.concat(),
        ..call.clone()
    };
    with_names(&fewest(&names, |left| differs(&with_names(left))))
}

/// Fewer debits, each with its mark where it has one.
fn fewer_debits(call: &Call, differs: &mut dyn FnMut(&Call) -> bool) -> Call {
    let lines: Vec<&[u8]> = call.debits.chunks(body::WIDTH).collect();
    let places: Vec<usize> = (0..lines.len().max(call.marks.len())).collect();
    let with_debits = |places: &[usize]| {
        let debits = places.iter().filter_map(|&place| lines.get(place).copied());
        let marks = places.iter().filter_map(|&place| call.marks.get(place));
        Call {
            debits: debits.collect::<Vec<&[u8]>>().concat(),
            marks: marks.copied().collect(),
            ..call.clone()
        }
    };
    with_debits(&fewest(&places, |left| differs(&with_debits(left))))
}

/// Fewer agreements, then fewer periods in each; a book out of form at most gives
/// way to an empty one.
fn smaller_book(call: &Call, differs: &mut dyn FnMut(&Call) -> bool) -> Call {
    let with_book = |agreements: &[AgreementModel]| Call {
        book: BookModel {
            agreements: agreements.to_vec(),
        }
        .render(),
        ..call.clone()
    };
    let agreements = Book::read(&call.book).map(|book| models(&book));
    let mut left = fewest(&agreements.unwrap_or_default(), |left| {
        differs(&with_book(left))
    });
    for place in 0..left.len() {
        let periods = fewest(&left[place].periods, |periods| {
            let mut fewer = left.clone();
            fewer[place].periods = periods.to_vec();
            differs(&with_book(&fewer))
        });
        left[place].periods = periods;
    }
    let smaller = with_book(&left);
    if smaller.book.len() < call.book.len() && differs(&smaller) {
        smaller
    } else {
        call.clone()
    }
}

fn models(book: &Book) -> Vec<AgreementModel> {
    let period = |period: &reference::book::Period| {
        let plate_and_nation = [period.plate, period.nation].concat();
        PeriodModel::of_texts(&plate_and_nation, period.start, period.end)
    };
    let agreement = |agreement: &reference::book::Agreement| AgreementModel {
        pan: agreement.pan.to_vec(),
        lease: b"LEASE-000000".to_vec(),
        periods: agreement.periods.iter().map(period).collect(),
    };
    book.agreements.iter().map(agreement).collect()
}

/// Exactly the output that is needed and all records there can be, if that will do.
fn plain_room(call: Call, differs: &mut dyn FnMut(&Call) -> bool) -> Call {
    let plain = Call {
        output_length: needs(&call).0 as usize,
        records_lent: MOST_LINES,
        ..call.clone()
    };
    if differs(&plain) {
        plain
    } else {
        call
    }
}

/// The smallest TIC found: fewer listed lines, rendered anew where it reads.
pub fn smallest_tic(
    question: &TicQuestion,
    differs: &mut dyn FnMut(&TicQuestion) -> bool,
) -> TicQuestion {
    let Ok(tic) = read(&question.tic) else {
        return question.clone();
    };
    let with_lines = |listed: &[reference::tic::Listed]| {
        let mut fewer = tic.clone();
        fewer.listed = listed.to_vec();
        TicQuestion {
            tic: fewer.render(),
            ..question.clone()
        }
    };
    let left = fewest(&tic.listed, |left| differs(&with_lines(left)));
    with_lines(&left)
}
