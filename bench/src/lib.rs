//! The yardstick: a planner written for speed in the straightforward way of Rust. The product's times are measured
//! against it.
//!
//! It does what the specification says of sheets, with the frames of requests 2026-01 and 2026-04, as the desk program
//! and as the host's call, and what request 2026-02 says of frequency lists. It does not look for refusal 7: its roster
//! is its own, and nobody else can damage it.

#![forbid(unsafe_code)]

pub mod desk;
mod frames;
mod growing;
mod hexadecimal;
pub mod host;
pub mod import;
mod load;
mod machine;
mod plan;
mod refusal;
mod roster;
mod slack;

/// A sheet longer than this is refused whole.
pub const LONGEST_SHEET: usize = 65_536;
/// A plan for 32 processors with its 0A: the longest frame that the host's call writes.
pub const LONGEST_FRAME: usize = 89;
