//! `best-times RUNS INPUT PROGRAM...` runs each program RUNS times on the input, in turn, and prints
//! for each the best wall time in milliseconds, from its start to its end.

#![forbid(unsafe_code)]

use std::ffi::OsStr;
use std::fs::File;
use std::num::NonZeroU32;
use std::process::{self, Command, Stdio};
use std::time::{Duration, Instant};
use std::{env, io};

fn time(program: &OsStr, input: &OsStr) -> io::Result<Duration> {
    let mut command = Command::new(program);
    command.stdin(File::open(input)?).stdout(Stdio::null());
    let start = Instant::now();
    command.status()?;
    Ok(start.elapsed())
}

fn main() -> io::Result<()> {
    let arguments: Vec<_> = env::args_os().skip(1).collect();
    let [runs, input, programs @ ..] = arguments.as_slice() else {
        eprintln!("usage: best-times RUNS INPUT PROGRAM...");
        process::exit(2);
    };
    let Some(runs) = runs.to_str().and_then(|runs| runs.parse::<NonZeroU32>().ok()) else {
        eprintln!("best-times: RUNS must be a number from 1");
        process::exit(2);
    };
    let mut best = vec![Duration::MAX; programs.len()];
    for _ in 0..runs.get() {
        for (best, program) in best.iter_mut().zip(programs) {
            *best = time(program, input)?.min(*best);
        }
    }
    let times: Vec<_> = best.iter().map(|best| format!("{:.3}", best.as_secs_f64() * 1000.0)).collect();
    println!("{}", times.join(" "));
    Ok(())
}
