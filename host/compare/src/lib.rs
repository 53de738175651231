//! The reference and the proved library, on the same generated calls and TICs.
//!
//! A call is compared in everything that is lent to it and everything it answers:
//! the number, every output byte to the end of the buffer, all words, all marks,
//! the summary. On a difference the call is made as small as the difference lets
//! it be.

#![forbid(unsafe_code)]

pub mod calls;
pub mod jobs;
pub mod owned;
pub mod owned_tic;
pub mod program;
pub mod rooms;
pub mod run;
pub mod show;
pub mod shrink;
pub mod shrink_call;
pub mod state;
pub mod subject;
pub mod tics;
