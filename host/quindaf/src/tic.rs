//! A TIC that reads: its values, its listed lines, and its text again.

use crate::answers::{Acceptance, Gross, NoRoom, Side, TicFault};
use crate::lent;

/// The length of a TIC of so many listed lines.
pub(crate) fn tic_length(listed: usize) -> usize {
    324 + 812 * listed
}

/// What a TIC says in its header and footer.
#[derive(Clone, Copy, Debug, PartialEq, Eq)]
pub struct TicValues {
    /// 00 to 05.
    pub acceptance: Acceptance,
    /// The side of the TIF.
    pub side: Option<Side>,
    /// Lines accepted.
    pub accepted: usize,
    /// Lines rejected.
    pub rejected: usize,
    /// Lines listed.
    pub listed: usize,
    /// The amounts of the accepted lines.
    pub accepted_amount: Gross,
    /// The amounts of the rejected lines.
    pub rejected_amount: Gross,
}

/// A listed line with its code, as parts of the TIC.
#[derive(Clone, Copy, Debug, PartialEq, Eq)]
pub struct Listed<'a> {
    /// Columns 1 to 809, with its "1".
    pub line: &'a [u8; 809],
    /// Columns 810 and 811.
    pub code: &'a [u8; 2],
}

/// The bytes of a TIC that was read and found in form.
#[derive(Clone, Debug, PartialEq, Eq)]
pub struct Tic {
    bytes: Vec<u8>,
    values: TicValues,
}

impl Tic {
    /// Reads a TIC, or gives the first of T1 to T5 that applies.
    pub fn read(bytes: Vec<u8>) -> Result<Tic, TicFault> {
        let mut values = [0; 7];
        TicFault::check(lent::read_tic(&bytes, &mut values))?;
        let values = TicValues {
            acceptance: Acceptance::of_number(values[0]),
            side: Side::of_number(values[1]),
            accepted: values[2] as usize,
            rejected: values[3] as usize,
            listed: values[4] as usize,
            accepted_amount: Gross(values[5]),
            rejected_amount: Gross(values[6]),
        };
        Ok(Tic { bytes, values })
    }

    /// What it says.
    pub fn values(&self) -> TicValues {
        self.values
    }

    /// Its bytes.
    pub fn bytes(&self) -> &[u8] {
        &self.bytes
    }

    /// Its bytes, given back.
    pub fn into_bytes(self) -> Vec<u8> {
        self.bytes
    }

    /// Listed line k, counted from 1, or nothing where there is none (T6). Each
    /// question reads the whole TIC again.
    pub fn listed(&self, k: usize) -> Option<Listed<'_>> {
        let mut place = [0; 2];
        if lent::listed(&self.bytes, k, &mut place) != 0 {
            return None;
        }
        let [line, code] = place.map(|place| &self.bytes[place as usize..]);
        Some(Listed {
            line: line.first_chunk()?,
            code: code.first_chunk()?,
        })
    }

    /// Writes what was read.
    pub fn rewritten(&self) -> Vec<u8> {
        let mut out = vec![0; tic_length(self.values.listed)];
        self.rewrite_into(&mut out)
            .expect("an output as long as the TIC");
        out
    }

    /// Writes what was read into a lent output: how many bytes, or E7 with none
    /// changed.
    pub fn rewrite_into(&self, out: &mut [u8]) -> Result<usize, NoRoom> {
        let mut length = [0];
        match lent::rewrite_tic(&self.bytes, out, &mut length) {
            0 => Ok(length[0] as usize),
            _ => Err(NoRoom),
        }
    }
}
