//! The proved library's speed beside a plain program for the same job, and
//! beside one pass that only looks for line feeds.

#![deny(unsafe_code)]

#[allow(unsafe_code)]
mod clock;
pub mod data;
pub mod plain;
pub mod timing;
