//! The rank modulation rewrite engine of the scope document in plain safe Rust: a second
//! implementation, to compare answers and speed with.
//!
//! - [`order`]: orders of cells, their coordinates, distance, displacements and cost.
//! - [`code`]: the one-error code, its numbering both ways and its decoder.
//! - [`group`]: the group record and the plain machine.
//! - [`windows`]: runs of cells, and the numbers of the windows along them.
//! - [`load`]: test loads, symbols in a row by a generator.
//! - [`rounds`]: calls for windows and for loads, repeated and summed up, for the benchmark.
//! - [`calls`]: the program `rmcalls`, bytes in and text out.
//! - [`refusal`]: the refusal table.

#![forbid(unsafe_code)]

pub mod calls;
pub mod code;
pub mod group;
pub mod load;
pub mod order;
pub mod refusal;
pub mod rounds;
pub mod windows;

pub use calls::run;

/// The least and the greatest number of cells in a group.
pub const FEWEST: usize = 3;
pub const MOST: usize = 12;
