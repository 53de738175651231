//! A plain reference for judging a TIF, writing its TIC and reading a TIC back.
//!
//! It follows the papers alone: 01 is the scope paper, 02 has the change requests,
//! 004 is AP-3.7, 000 is AP-3.4. Clarity goes before speed.

#![forbid(unsafe_code)]

pub mod acceptance;
pub mod book;
pub mod call;
pub mod columns;
pub mod debits;
pub mod example;
pub mod generator;
pub mod job;
pub mod lines;
pub mod moment;
pub mod name;
pub mod numbers;
pub mod plate;
pub mod text;
pub mod tic;
pub mod tic_reader;
pub mod tif;
pub mod tif_writer;
pub mod tst;
pub mod tst_writer;
pub mod vectors;
pub mod verdict;
