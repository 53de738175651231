//! `bench`: the library, a plain program and one pass over the bytes, on files of
//! 999 and of 9,999 lines or stations. Build it for release.

#![forbid(unsafe_code)]

use bench::data::{
    all_refused, credits, debits_by_pan, debits_by_plate, debits_with_stations, no_line, tic,
    with_stations,
};
use bench::timing::{time_call, time_table, time_tic, Times, RUNS};
use std::time::Duration;

const FEW: usize = 999;
const MANY: usize = 9_999;

/// A job of so many lines, timed.
struct Job {
    what: &'static str,
    time: fn(usize) -> Times,
}

const JOBS: [Job; 7] = [
    Job {
        what: "DEB by PAN, full book",
        time: |lines| time_call(&debits_by_pan(lines)),
    },
    Job {
        what: "DEB by PAN and stations",
        time: |lines| time_call(&debits_with_stations(lines)),
    },
    Job {
        what: "DEB by plate, full book",
        time: |lines| time_call(&debits_by_plate(lines)),
    },
    Job {
        what: "CRE, as many debits",
        time: |lines| time_call(&credits(lines)),
    },
    Job {
        what: "DEB, all refused (L7)",
        time: |lines| time_call(&all_refused(lines)),
    },
    Job {
        what: "Station table tested",
        time: |lines| time_table(&with_stations(no_line(), lines), &no_line()),
    },
    Job {
        what: "TIC read",
        time: |lines| time_tic(&tic(lines)),
    },
];

fn main() {
    if cfg!(debug_assertions) {
        eprintln!("not built for release: the times say little");
    }
    println!("Shortest of {RUNS} runs after one to warm up, in milliseconds of processor time.");
    println!("Output, words and summary are made and touched before; they are not cleared, in");
    println!("the timed part or before it. Marks are set back before each run, untimed.");
    println!("plain: a plain Rust program with hash maps, the same answers to the byte.");
    println!("feeds: one pass that counts line feeds, over TIF, debits, book and station table,");
    println!("over the table alone where it is tested, or over the TIC.");
    println!();
    print_row(
        "job",
        "lines",
        ["library", "plain", "feeds"],
        ["lib/plain", "lib/feeds"],
    );
    for job in JOBS {
        let times = [FEW, MANY].map(job.time);
        for (lines, times) in [FEW, MANY].iter().zip(&times) {
            print_times(job.what, *lines, times);
        }
        print_growth(&times);
    }
}

fn print_row(what: &str, lines: &str, times: [&str; 3], ratios: [&str; 2]) {
    let [library, plain, feeds] = times;
    let [to_plain, to_feeds] = ratios;
    println!(
        "{what:<24} {lines:>6} {library:>10} {plain:>10} {feeds:>10} {to_plain:>10} {to_feeds:>10}"
    );
}

fn milliseconds(time: Duration) -> String {
    format!("{:.3}", time.as_secs_f64() * 1_000.0)
}

fn ratio(time: Duration, by: Duration) -> String {
    format!("{:.1}", time.as_secs_f64() / by.as_secs_f64())
}

fn print_times(what: &str, lines: usize, times: &Times) {
    let shown = [times.library, times.plain, times.line_feeds].map(milliseconds);
    let to_plain = ratio(times.library, times.plain);
    let to_feeds = ratio(times.library, times.line_feeds);
    print_row(
        what,
        &lines.to_string(),
        shown.each_ref().map(String::as_str),
        [&to_plain, &to_feeds],
    );
}

/// How many times longer the larger file takes; in step with the lines it is 10.
fn print_growth([few, many]: &[Times; 2]) {
    let growth = [
        ratio(many.library, few.library),
        ratio(many.plain, few.plain),
        ratio(many.line_feeds, few.line_feeds),
    ];
    let shown = growth.each_ref().map(String::as_str);
    print_row("  growth", "x 10", shown, ["", ""]);
}
