//! The program's job: eight lengths, eight bodies, one printed line (01, "The program").

use crate::call::{judge, Call};
use crate::text::big_endian;

pub const MOST_JOB_BYTES: usize = 65_536;
pub const OUTPUT_LENT: usize = 65_536;
pub const RECORDS_LENT: usize = 128;

const BODIES: usize = 8;
const LENGTH_WIDTH: usize = 4;
const LENGTHS_WIDTH: usize = BODIES * LENGTH_WIDTH;

/// The printed line for a job, with its line feed.
pub fn print_job(job: &[u8]) -> String {
    let printed = match read_job(job) {
        None => "J".to_string(),
        Some(call) => match judge(&call) {
            Err(fault) => format!("E{}", fault.number()),
            Ok(answer) => answer.summary.printed(),
        },
    };
    printed + "\n"
}

/// The call of a job, which lends no station table; or nothing where it is too
/// long, under 32 bytes or not filled exactly by its lengths.
pub fn read_job(job: &[u8]) -> Option<Call> {
    if job.len() > MOST_JOB_BYTES || job.len() < LENGTHS_WIDTH {
        return None;
    }
    let (lengths, mut rest) = job.split_at(LENGTHS_WIDTH);
    let lengths: Vec<u64> = lengths.chunks_exact(LENGTH_WIDTH).map(big_endian).collect();
    if lengths.iter().sum::<u64>() != rest.len() as u64 {
        return None;
    }
    let mut bodies = lengths.iter().map(|&length| {
        let (part, after) = rest.split_at(length as usize);
        rest = after;
        part.to_vec()
    });
    let mut next = || bodies.next().expect("eight bodies");
    Some(Call {
        name: next(),
        reception: next(),
        card: next(),
        received_names: next(),
        book: next(),
        debits: next(),
        marks: next(),
        tif: next(),
        tst: Vec::new(),
        records_lent: RECORDS_LENT,
        output_length: OUTPUT_LENT,
    })
}

/// The job that asks for a call, but for its station table: a job has no place
/// for one.
pub fn write_job(call: &Call) -> Vec<u8> {
    let bodies: [&[u8]; BODIES] = [
        &call.name,
        &call.reception,
        &call.card,
        &call.received_names,
        &call.book,
        &call.debits,
        &call.marks,
        &call.tif,
    ];
    let lengths = bodies
        .iter()
        .flat_map(|body| (body.len() as u32).to_be_bytes());
    lengths.chain(bodies.concat()).collect()
}
