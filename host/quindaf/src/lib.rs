//! Judging a TIF, writing its TIC and reading a TIC back, by the proved library.
//!
//! A [`Call`] owns everything that is lent but the open debits, whose marks it
//! changes:
//!
//! ```
//! use quindaf::{
//!     Acceptance, Book, Call, CodeCard, FileName, Moment, OpenDebits, Side, StationTable,
//! };
//!
//! // A DEB file without lines.
//! let zeros = |count: usize| "0".repeat(count);
//! let header = format!(
//!     "0{}{}{}{}NOK{}DEB{}{}130001{}\n",
//!     "100123", "20000B", "TIF100123202606150001", "TIF000000000000      ",
//!     zeros(15), zeros(15), "20260615230000", zeros(50),
//! );
//! let footer = format!("2{}\n", zeros(105));
//!
//! let call = Call {
//!     name: FileName(*b"TIF100123202606150001_20000B_130001"),
//!     received: Moment(*b"20260616020000"),
//!     card: CodeCard(b"0909081004140713".to_vec()),
//!     names: Vec::new(),
//!     book: Book::empty(),
//!     tif: (header + &footer).into_bytes(),
//!     stations: StationTable::none(),
//! };
//! let judged = call.judge(&mut OpenDebits::new())?;
//! assert_eq!(judged.summary.acceptance, Acceptance::Full);
//! assert_eq!(judged.summary.side, Some(Side::Debit));
//! assert_eq!(judged.tic.len(), 324);
//!
//! let tic = quindaf::Tic::read(judged.tic)?;
//! assert_eq!(tic.values().acceptance, Acceptance::Full);
//! assert_eq!(tic.listed(1), None);
//! # Ok::<(), Box<dyn std::error::Error>>(())
//! ```
//!
//! Every call runs on the thread that makes it and needs 128 KB of its stack; a
//! Rust thread has 2 MB unless it was started with less.
//!
//! The functions on lent memory, which answer any lengths and any bytes, are in
//! [`lent`]; `host/include/quindaf.h` has the same for C.

#![deny(missing_docs)]

mod answers;
mod call;
pub mod lent;
mod parts;
mod raw;
mod tic;
mod verdict;

pub use answers::{Acceptance, CallFault, Gross, Net, NoRoom, Side, Summary, TicFault};
pub use call::{Call, Judged, JudgedInto, Record};
pub use lent::MOST_LINES;
pub use parts::{Book, CodeCard, FileName, Mark, Moment, OpenDebits, StationTable};
pub use tic::{Listed, Tic, TicValues};
pub use verdict::{Refusal, Verdict};
