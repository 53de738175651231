//! Timed runs on lent memory that is made and touched before, and not cleared.
//! A time is the thread's time on the processor.

use crate::clock;
use crate::plain;
use quindaf::lent::{self, Read, Words, Written, MOST_LINES};
use reference::call::Call;
use std::hint::black_box;
use std::time::Duration;

/// How often each job is run; the shortest time counts.
pub const RUNS: usize = 7;

/// The times of one job.
#[derive(Clone, Copy, Debug)]
pub struct Times {
    pub library: Duration,
    pub plain: Duration,
    pub line_feeds: Duration,
}

/// Memory that calls write.
struct Lent {
    marks: Vec<u8>,
    words: Box<Words>,
    out: Vec<u8>,
    summary: [u64; 9],
}

/// A judge on lent memory, its station table of no bytes where none is lent.
type Judge = fn(Read, &[u8], Written) -> u32;

/// The library by the function that a caller would take.
fn library(read: Read, tst: &[u8], written: Written) -> u32 {
    match tst {
        [] => lent::judge(read, written),
        tst => lent::judge_with(read, tst, written),
    }
}

impl Lent {
    fn new(call: &Call) -> Lent {
        let words = vec![0; MOST_LINES].into_boxed_slice();
        Lent {
            marks: call.marks.clone(),
            words: words.try_into().expect("as many words as lines"),
            out: vec![b'#'; call.output_length],
            summary: [0; 9],
        }
    }

    /// The time of one call; only the marks are set back, before it.
    fn run(&mut self, judge: Judge, call: &Call) -> Duration {
        self.marks.copy_from_slice(&call.marks);
        let read = Read {
            name: &call.name,
            received: &call.reception,
            card: &call.card,
            names: &call.received_names,
            book: &call.book,
            debits: &call.debits,
            tif: &call.tif,
            room: call.records_lent,
        };
        let written = Written {
            marks: &mut self.marks,
            words: &mut self.words,
            out: &mut self.out,
            summary: &mut self.summary,
        };
        let start = clock::now();
        let answer = judge(black_box(read), black_box(&call.tst), black_box(written));
        let time = clock::now() - start;
        assert_eq!(black_box(answer), 0, "a sound call is answered");
        time
    }
}

/// The shortest of the runs, after one that warms up.
fn shortest(mut run: impl FnMut() -> Duration) -> Duration {
    run();
    (0..RUNS).map(|_| run()).min().expect("one run or more")
}

/// The times of a call, after the library and the plain program were seen to
/// leave the same behind.
pub fn time_call(call: &Call) -> Times {
    let (mut proved, mut plain) = (Lent::new(call), Lent::new(call));
    proved.run(library, call);
    plain.run(plain::judge_with, call);
    assert_eq!(proved.summary, plain.summary);
    assert!(proved.words == plain.words && proved.marks == plain.marks);
    assert!(proved.out == plain.out, "the same TIC");
    Times {
        library: shortest(|| proved.run(library, call)),
        plain: shortest(|| plain.run(plain::judge_with, call)),
        line_feeds: time_line_feeds(&[&call.tif, &call.debits, &call.book, &call.tst]),
    }
}

/// The times that a station table adds to a call: with it, less those without it.
/// No function reads a table and does nothing else.
pub fn time_table(with: &Call, without: &Call) -> Times {
    let (both, rest) = (time_call(with), time_call(without));
    Times {
        library: both.library.saturating_sub(rest.library),
        plain: both.plain.saturating_sub(rest.plain),
        line_feeds: time_line_feeds(&[&with.tst]),
    }
}

/// The times of reading a TIC.
pub fn time_tic(tic: &[u8]) -> Times {
    let (mut library, mut plain) = ([0; 7], [0; 7]);
    assert_eq!(lent::read_tic(tic, &mut library), 0);
    assert_eq!(plain::read_tic(tic, &mut plain), 0);
    assert_eq!(library, plain);
    Times {
        library: shortest(|| time_reading(lent::read_tic, tic)),
        plain: shortest(|| time_reading(plain::read_tic, tic)),
        line_feeds: time_line_feeds(&[tic]),
    }
}

fn time_reading(read: fn(&[u8], &mut [u64; 7]) -> u32, tic: &[u8]) -> Duration {
    let mut values = [0; 7];
    let start = clock::now();
    let answer = read(black_box(tic), &mut values);
    let time = clock::now() - start;
    assert_eq!(black_box((answer, values)).0, 0);
    time
}

/// One pass over the bytes that counts line feeds.
fn time_line_feeds(parts: &[&[u8]]) -> Duration {
    shortest(|| {
        let start = clock::now();
        let counted: usize = black_box(parts).iter().map(|part| line_feeds(part)).sum();
        let time = clock::now() - start;
        black_box(counted);
        time
    })
}

/// Counted by stretches whose count fits a byte, so that many bytes are compared
/// at a time.
fn line_feeds(bytes: &[u8]) -> usize {
    let in_stretch = |stretch: &[u8]| -> u8 {
        let found = stretch.iter().map(|&byte| u8::from(byte == b'\n'));
        found.sum()
    };
    bytes
        .chunks(192)
        .map(|stretch| usize::from(in_stretch(stretch)))
        .sum()
}
