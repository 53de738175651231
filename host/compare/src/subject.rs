//! What is compared with the reference: functions on lent memory.

use quindaf::lent::{self, Read, Written};

/// The five functions of `host/include/quindaf.h`, or others that claim to be.
#[derive(Clone, Copy)]
pub struct Subject {
    pub judge: fn(Read, Written) -> u32,
    pub judge_with: fn(Read, &[u8], Written) -> u32,
    pub read_tic: fn(&[u8], &mut [u64; 7]) -> u32,
    pub listed: fn(&[u8], usize, &mut [u64; 2]) -> u32,
    pub rewrite_tic: fn(&[u8], &mut [u8], &mut [u64; 1]) -> u32,
}

/// The proved library.
pub const LIBRARY: Subject = Subject {
    judge: lent::judge,
    judge_with: lent::judge_with,
    read_tic: lent::read_tic,
    listed: lent::listed,
    rewrite_tic: lent::rewrite_tic,
};
