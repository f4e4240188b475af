//! `load-engine N ROUNDS` calls the engine's load that many times, for 1,000 symbols each; a checksum.

fn main() {
    twin::rounds::loads(engine::load);
}
