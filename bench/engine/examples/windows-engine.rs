//! `windows-engine LENGTH WIDTH STEP ROUNDS` calls the engine's windows that many times; a checksum.

fn main() {
    twin::rounds::windows(engine::windows);
}
