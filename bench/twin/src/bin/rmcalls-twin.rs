//! `rmcalls` by the twin: call records on standard input, text on standard output.

#![forbid(unsafe_code)]

use std::io::{self, Read, Write};
use twin::calls::{LIMIT, run};

fn main() -> io::Result<()> {
    let mut input = Vec::with_capacity(LIMIT);
    // where a read fails, what came before is all of the input
    let _ = io::stdin().lock().take(LIMIT as u64).read_to_end(&mut input);
    io::stdout().lock().write_all(&run(&input))
}
