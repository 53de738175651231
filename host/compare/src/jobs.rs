//! Generated jobs for the program: good ones, and ones that are no job or ask
//! for something else than they did.

use reference::acceptance::Side;
use reference::generator::limits::rare_limit;
use reference::generator::rng::Rng;
use reference::generator::world::{Size, World};
use reference::generator::{damage::Draft, generate_without_table};
use reference::job::{write_job, MOST_JOB_BYTES};

const JOBS: u64 = 3;
const LENGTHS: usize = 8;
const LENGTHS_WIDTH: usize = 32;

/// One way to spoil a job.
type Damage = fn(&mut Rng, &mut Vec<u8>);

/// The job of a seed: half of them as written for a call, good or damaged.
pub fn job(seed: u64) -> Vec<u8> {
    let mut rng = Rng::new(seed, JOBS);
    let mut job = if seed % 16 == 5 || rare_limit(seed).is_some() {
        large_job(&mut rng)
    } else {
        write_job(&generate_without_table(seed))
    };
    if rng.once_in(2) {
        rng.pick(&DAMAGES)(&mut rng, &mut job);
    }
    job
}

const DAMAGES: [Damage; 11] = [
    |rng, job| job.truncate(rng.below(job.len())),
    |rng, job| job.truncate(rng.below(LENGTHS_WIDTH + 2)),
    |rng, job| {
        let extra = 1 + rng.below(40);
        job.extend(rng.bytes(extra));
    },
    |rng, job| {
        let length = any_length(rng);
        add_to_length(job, length, *rng.pick(&[1, u32::MAX, 256, 65_536]));
    },
    |rng, job| move_between_lengths(rng, job),
    |rng, job| wrap_lengths(rng, job),
    |rng, job| {
        let place = rng.below(job.len());
        job[place] = rng.byte();
    },
    |rng, job| {
        let place = rng.below(LENGTHS_WIDTH);
        job[place] = rng.byte();
    },
    |rng, job| *job = rng.bytes(job.len() % 300),
    |_, job| fill_up_to(job, MOST_JOB_BYTES),
    |_, job| fill_up_to(job, MOST_JOB_BYTES + 1),
];

/// As many lines as a job has room for, or a few less.
fn large_job(rng: &mut Rng) -> Vec<u8> {
    let side = *rng.pick(&[Side::Debit, Side::Credit]);
    let size = Size {
        agreements: 2,
        periods: 3,
        debits: rng.below(3),
        lines: 70 + rng.below(8),
    };
    let world = World::new(rng, size, side);
    write_job(&Draft::new(rng, &world).call)
}

fn any_length(rng: &mut Rng) -> usize {
    rng.below(LENGTHS)
}

fn length(job: &[u8], which: usize) -> u32 {
    let bytes = &job[4 * which..4 * which + 4];
    u32::from_be_bytes(bytes.try_into().expect("four bytes"))
}

/// Adds to one of the lengths, in 32 bits.
fn add_to_length(job: &mut [u8], which: usize, more: u32) {
    let sum = length(job, which).wrapping_add(more);
    job[4 * which..4 * which + 4].copy_from_slice(&sum.to_be_bytes());
}

/// Takes from one length what another is given: the job is still filled.
fn move_between_lengths(rng: &mut Rng, job: &mut [u8]) {
    let (from, to) = (any_length(rng), any_length(rng));
    let most = length(job, from) as usize;
    let moved = *rng.pick(&[1, 2, 35, 810, most]).min(&most) as u32;
    add_to_length(job, from, moved.wrapping_neg());
    add_to_length(job, to, moved);
}

/// Lengths whose sum comes out right in 32 bits and in no wider number.
fn wrap_lengths(rng: &mut Rng, job: &mut [u8]) {
    let (one, other) = (any_length(rng), any_length(rng));
    let high = *rng.pick(&[0x8000_0000, 0xFFFF_0000, 0xC000_0000, 0xFFFF_FFFF]);
    add_to_length(job, one, high);
    add_to_length(
        job,
        (other + usize::from(other == one)) % LENGTHS,
        high.wrapping_neg(),
    );
}

/// Makes the job so long by zeros at the end of its TIF.
fn fill_up_to(job: &mut Vec<u8>, bytes: usize) {
    let more = bytes.saturating_sub(job.len());
    job.resize(job.len() + more, b'0');
    add_to_length(job, LENGTHS - 1, more as u32);
}

/// Lengths at and beside every limit, empty of sense.
pub fn fixed_jobs() -> Vec<Vec<u8>> {
    let most = MOST_JOB_BYTES;
    let lengths = [0, 1, 31, 32, 33, most - 1, most, most + 1, 70_000, 200_000];
    let zeros = lengths.iter().map(|&length| vec![0; length]);
    let filled = lengths
        .iter()
        .filter(|&&length| length >= LENGTHS_WIDTH)
        .map(|&length| {
            let mut job = vec![0; LENGTHS_WIDTH];
            fill_up_to(&mut job, length);
            job
        });
    let wrapping = [[0xFFFF_FFFF, 1], [0x8000_0000, 0x8000_0000]].map(|[one, other]: [u32; 2]| {
        let mut job = vec![0; LENGTHS_WIDTH];
        add_to_length(&mut job, 0, one);
        add_to_length(&mut job, 7, other);
        job
    });
    zeros.chain(filled).chain(wrapping).collect()
}

#[cfg(test)]
mod tests {
    use super::{fixed_jobs, job};
    use reference::job::print_job;
    use std::collections::BTreeMap;

    /// The jobs reach every answer that a job can have.
    #[test]
    fn every_answer_occurs() {
        let mut seen: BTreeMap<String, usize> = BTreeMap::new();
        for seed in 0..4_000 {
            let printed = print_job(&job(seed));
            let answer: String = printed.trim_end().chars().take(2).collect();
            *seen.entry(answer).or_default() += 1;
        }
        let answers: Vec<&str> = seen.keys().map(String::as_str).collect();
        let all = [
            "00", "01", "02", "03", "04", "05", "E1", "E2", "E3", "E4", "E5", "E6", "J",
        ];
        assert_eq!(answers, all, "{seen:?}");
        assert!(seen.values().all(|&count| count >= 10), "{seen:?}");
    }

    #[test]
    fn large_jobs_are_judged() {
        let large = |seed: &u64| job(*seed).len() > 57_000;
        let judged = |seed: &u64| print_job(&job(*seed)).starts_with("01 ");
        let seeds = (0..1_600).filter(large).filter(judged);
        assert!(seeds.count() > 20);
    }

    #[test]
    fn fixed_jobs_are_at_the_limits() {
        let printed: Vec<String> = fixed_jobs().iter().map(|job| print_job(job)).collect();
        assert_eq!(printed[3], "E1\n");
        assert_eq!(printed.iter().filter(|line| *line == "J\n").count(), 14);
    }
}
