//! A plain program for the same job, as one would write it in Rust without
//! proofs: hash maps for repeated lines, PANs, plates, debits and stations.
//!
//! It has the library's functions on lent memory and gives the same answers.

mod book;
mod debits;
mod fields;
mod file;
mod judging;
mod reading;
mod stations;
mod tic;

pub use judging::{judge, judge_with};
pub use reading::read_tic;
