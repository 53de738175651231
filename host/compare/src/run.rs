//! Many seeds on all cores, up to the first difference.

use crate::calls::{call_difference, seed_difference, Found};
use crate::owned::owned_difference;
use crate::show::{shown_call, shown_question};
use crate::shrink_call::{smallest_call, smallest_tic};
use crate::subject::Subject;
use crate::tics::{tic_difference, tic_seed_difference};
use std::ops::Range;
use std::sync::atomic::{AtomicBool, Ordering};
use std::thread;

/// Compares the calls of the seeds; the report of a difference, with its seed
/// and the smallest call that shows it.
pub fn compare_calls(subject: &Subject, seeds: Range<u64>) -> Option<String> {
    let (seed, found) = first_found(seeds, |seed| seed_difference(subject, seed))?;
    let salt = seed as u8;
    let smallest = smallest_call(&found.call, &mut |call| {
        call_difference(subject, call, salt).is_some() || owned_difference(call).is_some()
    });
    let difference =
        call_difference(subject, &smallest, salt).or_else(|| owned_difference(&smallest));
    let Found {
        call,
        difference: first,
    } = found;
    Some(format!(
        "seed {seed}: {first}\n\
         the smallest call found ({} of {} bytes of TIF): {}\n{}",
        smallest.tif.len(),
        call.tif.len(),
        difference.unwrap_or_default(),
        shown_call(&smallest)
    ))
}

/// The same for the TICs of the seeds.
pub fn compare_tics(subject: &Subject, seeds: Range<u64>) -> Option<String> {
    let (seed, (question, first)) = first_found(seeds, |seed| tic_seed_difference(subject, seed))?;
    let smallest = smallest_tic(&question, &mut |question| {
        tic_difference(subject, question).is_some()
    });
    let difference = tic_difference(subject, &smallest).unwrap_or_default();
    let shown = shown_question(&smallest);
    Some(format!(
        "TIC of seed {seed}: {first}\nthe smallest found: {difference}\n{shown}"
    ))
}

/// The lowest seed found, each core taking every so-manyth.
pub fn first_found<T: Send>(
    seeds: Range<u64>,
    find: impl Fn(u64) -> Option<T> + Sync,
) -> Option<(u64, T)> {
    let cores = thread::available_parallelism().map_or(1, |cores| cores.get() as u64);
    let stop = AtomicBool::new(false);
    let search = |core: u64| {
        let own = (seeds.start + core..seeds.end).step_by(cores as usize);
        let found = own
            .take_while(|_| !stop.load(Ordering::Relaxed))
            .find_map(|seed| Some((seed, find(seed)?)));
        stop.fetch_or(found.is_some(), Ordering::Relaxed);
        found
    };
    let all = thread::scope(|scope| {
        let searches: Vec<_> = (0..cores)
            .map(|core| scope.spawn(move || search(core)))
            .collect();
        let found = searches
            .into_iter()
            .map(|search| search.join().expect("a search ends"));
        found.collect::<Vec<_>>()
    });
    all.into_iter().flatten().min_by_key(|(seed, _)| *seed)
}
