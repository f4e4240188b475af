//! The engine's loads against the twin's: all n, within the limits and outside, and many seeds; lists
//! of all lengths up to 70, and long ones. The same loads every time.

use std::collections::BTreeSet;
use twin::refusal::Refusal;
use twin::{FEWEST, MOST};

/// The seed that Marsaglia gives.
const MARSAGLIA: u32 = 2_463_534_242;

/// The length of the long lists.
const LONG: usize = 100_000;

/// What a call answers and leaves.
#[derive(Debug, PartialEq)]
struct Left {
    answer: Result<u32, u8>,
    list: Vec<u32>,
}

/// A 64-bit linear congruential generator; its high half is used.
struct Chance(u64);

impl Chance {
    fn any(&mut self) -> u32 {
        self.0 = self.0.wrapping_mul(6_364_136_223_846_793_005).wrapping_add(1_442_695_040_888_963_407);
        (self.0 >> 32) as u32
    }

    fn below(&mut self, bound: usize) -> usize {
        ((u64::from(self.any()) * bound as u64) >> 32) as usize
    }

    /// A list that holds something, as a caller's may.
    fn lent(&mut self, len: usize) -> Vec<u32> {
        (0..len).map(|_| self.any()).collect()
    }

    /// Seeds that are small, great, a single bit or anything.
    fn seeds(&mut self, random: usize) -> Vec<u32> {
        let mut seeds = vec![0, 1, 2, 3, 1 << 16, 1 << 31, (1 << 31) - 1, u32::MAX - 1, u32::MAX, MARSAGLIA];
        seeds.extend((0..random).map(|_| self.any()));
        seeds
    }
}

/// Both answer the same and leave the same in the list, which is all symbols where the call is done and
/// as it was where it is refused; what that is.
fn same(n: usize, seed: u32, lent: &[u32]) -> Left {
    let mut list = lent.to_vec();
    let answer = engine::load(n, seed, &mut list);
    let engine = Left { answer, list };
    let mut list = lent.to_vec();
    let answer = twin::load::load(n, seed, &mut list);
    let twin = Left { answer: answer.map_err(Refusal::number), list };
    // a long list is not printed
    let at = engine.list.iter().zip(&twin.list).position(|(a, b)| a != b);
    assert_eq!((engine.answer, at), (twin.answer, None), "n = {n}, seed {seed}, {} symbols", lent.len());
    match engine.answer {
        Ok(last) => {
            let words = engine::words(n).expect("n is 3 to 12");
            assert!(engine.list.iter().all(|&symbol| symbol < words), "n = {n}, seed {seed}: no symbol");
            assert_ne!(last, 0);
        }
        Err(_) => assert!(engine.list == lent, "n = {n}, seed {seed}: touched, though refused"),
    }
    engine
}

#[test]
fn all_sizes_seeds_and_lengths() {
    let mut chance = Chance(1);
    let mut met = BTreeSet::new();
    let far = [255, 256, 259, 1 << 32, (1 << 32) + 3, usize::MAX];
    for n in (0..=14).chain(far) {
        for seed in chance.seeds(10) {
            for len in 0..=70 {
                let left = same(n, seed, &chance.lent(len));
                let expected = match (n, seed) {
                    (FEWEST..=MOST, 0) => 21,
                    (FEWEST..=MOST, _) => 0,
                    _ => 1,
                };
                assert_eq!(left.answer.err().unwrap_or(0), expected, "n = {n}, seed {seed}");
                if expected == 0 && len == 0 {
                    assert_eq!(left.answer, Ok(seed));
                }
                met.insert(expected);
            }
        }
    }
    assert_eq!(met, BTreeSet::from([0, 1, 21]));
}

#[test]
fn random_seeds() {
    let mut chance = Chance(2);
    for _ in 0..20_000 {
        let (n, seed) = (FEWEST + chance.below(MOST - FEWEST + 1), chance.any());
        let len = chance.below(40);
        same(n, seed, &chance.lent(len));
    }
}

#[test]
fn long_lists() {
    let mut chance = Chance(3);
    for n in [2, 3, 4, 5, 6, 7, 8, 9, 10, 11, 12, 13] {
        for seed in [0, 1, MARSAGLIA, u32::MAX, chance.any()] {
            let lent = chance.lent(LONG);
            same(n, seed, &lent);
        }
    }
}

/// A load cut in two, or in any number of pieces, is the load made whole.
#[test]
fn cut_at_every_place() {
    let mut chance = Chance(4);
    for n in FEWEST..=MOST {
        for seed in [1, MARSAGLIA, u32::MAX, chance.any() | 1] {
            for len in [0, 1, 2, 17, 70] {
                let whole = same(n, seed, &chance.lent(len));
                for cut in 0..=len {
                    let mut list = chance.lent(len);
                    let (first, second) = list.split_at_mut(cut);
                    let between = engine::load(n, seed, first).expect("it is not refused");
                    let answer = engine::load(n, between, second);
                    assert_eq!(Left { answer, list }, whole, "n = {n}, seed {seed}, cut at {cut}");
                }
            }
            let whole = same(n, seed, &chance.lent(LONG));
            let mut list = chance.lent(LONG);
            let (mut rest, mut state) = (&mut list[..], seed);
            while !rest.is_empty() {
                let cut = chance.below(2000).min(rest.len());
                let (piece, after) = rest.split_at_mut(cut);
                state = engine::load(n, state, piece).expect("it is not refused");
                rest = after;
            }
            assert!((Left { answer: Ok(state), list }) == whole, "n = {n}, seed {seed}, in pieces");
        }
    }
}

/// Where it is refused the last state is 0, which `engine::load` does not show.
#[test]
fn no_last_state_where_refused() {
    unsafe extern "C" {
        fn rm_load(n: usize, seed: u32, list: *mut u32, list_len: usize, last: *mut u32) -> u8;
    }
    for (n, seed, expected) in [(2, 1, (1, 0)), (13, 0, (1, 0)), (5, 0, (21, 0)), (5, 1, (0, 67_634_689))] {
        for before in [0, 1, u32::MAX] {
            let (mut list, mut last) = ([7; 2], before);
            // SAFETY: as in `engine::load`.
            let refusal = unsafe { rm_load(n, seed, list.as_mut_ptr(), list.len(), &mut last) };
            assert_eq!((refusal, last), expected, "n = {n}, seed {seed}");
            assert_eq!(list, if refusal == 0 { [1, 3] } else { [7; 2] });
        }
    }
}

/// The example of rm.h, worked out there.
#[test]
fn worked_by_hand() {
    assert_eq!(engine::words(5), Some(14));
    let left = same(5, 1, &[7; 4]);
    assert_eq!(left, Left { answer: Ok(307_599_695), list: vec![1, 3, 13, 11] });
    let left = same(5, 1, &[7; 2]);
    assert_eq!(left, Left { answer: Ok(67_634_689), list: vec![1, 3] });
    let left = same(5, 67_634_689, &[7; 2]);
    assert_eq!(left, Left { answer: Ok(307_599_695), list: vec![13, 11] });
    assert_eq!(same(5, 1, &[]).answer, Ok(1));
    assert_eq!(same(5, 0, &[7; 4]).answer, Err(21));
    assert_eq!(same(13, 0, &[7; 4]).answer, Err(1));
    // K(12) is 20,826,156, so the first state is its own symbol
    assert_eq!(same(12, 1, &[7]), Left { answer: Ok(270_369), list: vec![270_369] });
}
