//! Calls for windows and for loads, again and again: what the benchmark counts.

use crate::group::TOP;
use crate::windows::LONGEST;
use std::hint::black_box;
use std::process;

/// A call for windows: a run's levels, width, step, numbers and scratch; how many windows there are,
/// or the number of a refusal.
pub type Windows = fn(&[u16], usize, usize, &mut [u32], &mut [u16]) -> Result<usize, u8>;

/// A call for a load: n, seed and list; the last state, or the number of a refusal.
pub type Load = fn(usize, u32, &mut [u32]) -> Result<u32, u8>;

/// The symbols that a call for a load makes.
const SYMBOLS: usize = 1000;

/// Makes as many calls as there are rounds, each after a change of one level; the sum of the last
/// numbers of each, and of all that the last call left.
fn sum_of_windows(call: Windows, len: usize, width: usize, step: usize, rounds: usize) -> Result<u64, u8> {
    let mut levels = levels();
    let mut numbers = [0; LONGEST];
    let mut scratch = [0; LONGEST];
    let mut sum = 0;
    for round in 0..rounds {
        levels[round % LONGEST] = (round % (usize::from(TOP) + 1)) as u16;
        // what the compiler knows of its arguments must not make the call cheaper
        let (levels, width, step) = black_box((&levels[..len], width, step));
        let count = call(levels, width, step, black_box(&mut numbers), black_box(&mut scratch))?;
        sum = add(sum, numbers[count - 1]);
    }
    sum = numbers.into_iter().fold(sum, add);
    Ok(scratch.into_iter().map(u32::from).fold(sum, add))
}

/// Makes as many calls as there are rounds, one load in pieces from seed 1; the sum of the last states
/// and symbols of each, and of all that the last call left.
fn sum_of_loads(call: Load, n: usize, rounds: usize) -> Result<u64, u8> {
    let mut list = [0; SYMBOLS];
    let mut state = 1;
    let mut sum = 0;
    for _ in 0..rounds {
        // the length of the list, too, must not be known to the compiler
        let (n, seed, lent) = black_box((n, state, &mut list[..]));
        state = call(n, seed, lent)?;
        sum = add(add(sum, state), list[SYMBOLS - 1]);
    }
    Ok(list.into_iter().fold(sum, add))
}

/// The same levels every time, by a 64-bit linear congruential generator.
fn levels() -> [u16; LONGEST] {
    let mut state: u64 = 1;
    std::array::from_fn(|_| {
        state = state.wrapping_mul(6_364_136_223_846_793_005).wrapping_add(1_442_695_040_888_963_407);
        (state >> 52) as u16
    })
}

fn add(sum: u64, number: u32) -> u64 {
    sum.rotate_left(5) ^ u64::from(number)
}

/// The program for windows: length, width, step and rounds as arguments, the checksum as output.
pub fn windows(call: Windows) {
    let numbers = arguments();
    let Some(&[len @ ..=LONGEST, width, step, rounds]) = numbers.as_deref() else {
        usage(&format!("LENGTH WIDTH STEP ROUNDS, a length up to {LONGEST}"));
    };
    print(sum_of_windows(call, len, width, step, rounds));
}

/// The program for loads: n and rounds as arguments, the checksum as output.
pub fn loads(call: Load) {
    let numbers = arguments();
    let Some(&[n, rounds]) = numbers.as_deref() else { usage("N ROUNDS") };
    print(sum_of_loads(call, n, rounds));
}

/// The program's arguments, where they are numbers.
fn arguments() -> Option<Vec<usize>> {
    std::env::args().skip(1).map(|word| word.parse().ok()).collect()
}

fn usage(words: &str) -> ! {
    eprintln!("usage: {words}");
    process::exit(2);
}

fn print(sum: Result<u64, u8>) {
    match sum {
        Ok(sum) => println!("{sum:016x}"),
        Err(refusal) => println!("refused {refusal}"),
    }
}
