//! Three kinds of number that never mix (01, "All amounts are in 1/100 NOK").

use crate::text::digits_value;
use std::iter::Sum;

/// A fee without VAT, in 1/100 NOK.
#[derive(Clone, Copy, Debug, Default, PartialEq, Eq)]
pub struct Net(pub u64);

/// An amount with VAT, in 1/100 NOK.
#[derive(Clone, Copy, Debug, Default, PartialEq, Eq)]
pub struct Gross(pub u64);

/// A number of records or lines.
#[derive(Clone, Copy, Debug, Default, PartialEq, Eq)]
pub struct Count(pub u64);

impl Net {
    pub fn read(field: &[u8]) -> Option<Net> {
        digits_value(field).map(Net)
    }
}

impl Gross {
    pub fn read(field: &[u8]) -> Option<Gross> {
        digits_value(field).map(Gross)
    }
}

impl Count {
    pub fn read(field: &[u8]) -> Option<Count> {
        digits_value(field).map(Count)
    }

    pub fn of(number: usize) -> Count {
        Count(number as u64)
    }
}

impl Sum for Gross {
    fn sum<I: Iterator<Item = Gross>>(amounts: I) -> Gross {
        Gross(amounts.map(|amount| amount.0).sum())
    }
}
