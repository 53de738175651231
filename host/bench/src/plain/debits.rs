//! Open debits, found by what a credit must agree on.

use super::fields::{all_digits, joined};
use reference::columns::body;
use std::collections::HashMap;

const KEY: usize = 70;

/// Whether debits and marks are in form (E6).
pub fn are_sound(debits: &[u8], marks: &[u8]) -> bool {
    let lines = debits.chunks_exact(body::WIDTH);
    lines.remainder().is_empty()
        && lines.len() <= 9_999
        && lines.len() == marks.len()
        && marks.iter().all(|&mark| mark <= 1)
        && lines.into_iter().all(is_open_debit)
}

fn is_open_debit(line: &[u8]) -> bool {
    line[0] == b'1'
        && matches!(line[1], b'C' | b'D')
        && line[809] == b'\n'
        && all_digits(body::AMOUNT_WITH_VAT.of(line))
}

/// What a debit and a credit agree on, side by side.
fn key(line: &[u8]) -> [u8; KEY] {
    joined(&body::AGREEING, line)
}

/// The free debits of each key, the first one last.
pub struct FreeDebits {
    by_key: HashMap<[u8; KEY], Vec<u32>>,
}

impl FreeDebits {
    pub fn new(debits: &[u8], marks: &[u8]) -> FreeDebits {
        let mut by_key: HashMap<[u8; KEY], Vec<u32>> = HashMap::with_capacity(marks.len());
        let lines = debits.chunks_exact(body::WIDTH).zip(marks);
        for (index, (line, &mark)) in lines.enumerate().rev() {
            if mark == 0 {
                by_key.entry(key(line)).or_default().push(index as u32 + 1);
            }
        }
        FreeDebits { by_key }
    }

    /// Takes the first free debit that agrees; its number from 1.
    pub fn take(&mut self, credit: &[u8]) -> Option<u64> {
        self.by_key.get_mut(&key(credit))?.pop().map(u64::from)
    }
}
