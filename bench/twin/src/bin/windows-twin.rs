//! `windows-twin LENGTH WIDTH STEP ROUNDS` calls the twin's windows that many times; a checksum.

#![forbid(unsafe_code)]

use twin::refusal::Refusal;
use twin::{rounds, windows::windows};

fn main() {
    rounds::windows(|levels, width, step, numbers, scratch| {
        windows(levels, width, step, numbers, scratch).map_err(Refusal::number)
    });
}
