//! `compare [--from SEED] [--calls COUNT] [--tics COUNT]`: the library and the
//! reference on as many generated calls and TICs as are asked for.

#![forbid(unsafe_code)]

use compare::run::{compare_calls, compare_tics};
use compare::subject::LIBRARY;
use std::process::ExitCode;
use std::time::Instant;

struct Wanted {
    from: u64,
    calls: u64,
    tics: u64,
}

fn main() -> ExitCode {
    let Some(wanted) = wanted() else {
        eprintln!("compare [--from SEED] [--calls COUNT] [--tics COUNT]");
        return ExitCode::FAILURE;
    };
    let Wanted { from, calls, tics } = wanted;
    println!("{calls} calls and {tics} TICs from seed {from}");
    let start = Instant::now();
    let difference = compare_calls(&LIBRARY, from..from + calls)
        .or_else(|| compare_tics(&LIBRARY, from..from + tics));
    let seconds = start.elapsed().as_secs_f64();
    match difference {
        None => {
            println!("no difference ({seconds:.1} s)");
            ExitCode::SUCCESS
        }
        Some(report) => {
            println!("{report}");
            ExitCode::FAILURE
        }
    }
}

/// 200,000 of each from seed 0, unless the arguments say otherwise.
fn wanted() -> Option<Wanted> {
    let mut wanted = Wanted {
        from: 0,
        calls: 200_000,
        tics: 200_000,
    };
    let mut arguments = std::env::args().skip(1);
    while let Some(name) = arguments.next() {
        let value = arguments.next()?.parse().ok()?;
        match name.as_str() {
            "--from" => wanted.from = value,
            "--calls" => wanted.calls = value,
            "--tics" => wanted.tics = value,
            _ => return None,
        }
    }
    Some(wanted)
}
