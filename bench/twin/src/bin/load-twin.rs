//! `load-twin N ROUNDS` calls the twin's load that many times, for 1,000 symbols each; a checksum.

#![forbid(unsafe_code)]

use twin::refusal::Refusal;
use twin::{load::load, rounds};

fn main() {
    rounds::loads(|n, seed, list| load(n, seed, list).map_err(Refusal::number));
}
