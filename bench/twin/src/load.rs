//! Test loads: symbols in a row by the 32-bit xorshift of Marsaglia.

use crate::code::words;
use crate::refusal::Refusal;

/// The state after this one; 0, which is no state, would stay 0.
pub fn next_state(mut state: u32) -> u32 {
    state ^= state << 13;
    state ^= state >> 17;
    state ^= state << 5;
    state
}

/// Fills the list with symbols of n cells, each the next state modulo K(n); the first comes from the
/// state after the seed. The last state, which is the seed where the list is empty.
pub fn load(n: usize, seed: u32, list: &mut [u32]) -> Result<u32, Refusal> {
    let words = words(n)?;
    if seed == 0 {
        return Err(Refusal::Seed);
    }
    let mut state = seed;
    for symbol in list {
        state = next_state(state);
        *symbol = state % words;
    }
    Ok(state)
}

#[cfg(test)]
mod tests {
    use super::*;
    use crate::{FEWEST, MOST};

    /// The first states from 1.
    const STATES: [u32; 5] = [270_369, 67_634_689, 2_647_435_461, 307_599_695, 2_398_689_233];

    /// Many states: every one and every two bits, small and great ones, and some from all over.
    fn many() -> impl Iterator<Item = u32> {
        let bits = (0..32).flat_map(|a| (0..=a).map(move |b| 1 << a | 1 << b));
        let spread = (1..20_000u32).map(|at| at.wrapping_mul(2_654_435_761));
        bits.chain(1..20_000).chain(u32::MAX - 20_000..=u32::MAX).chain(spread)
    }

    /// The state after one in which this bit alone is 1, by the places of its bits: a shift to the left
    /// adds, modulo 2, to each place the bit so far below it, and a shift to the right, here less than 0,
    /// the one above it.
    fn column(bit: usize) -> u32 {
        let mut bits = [false; 32];
        bits[bit] = true;
        for shift in [13, -17, 5] {
            let before = bits;
            for (place, bit) in (0..).zip(&mut bits) {
                let from = usize::try_from(place - shift).ok();
                *bit ^= from.and_then(|from| before.get(from)).is_some_and(|&bit| bit);
            }
        }
        (0..).zip(bits).map(|(place, bit)| u32::from(bit) << place).sum()
    }

    /// The state before this one: the step taken back, bit by bit.
    fn state_before(mut state: u32) -> u32 {
        // up from the lowest bit, as those below are then the old ones; down after the shift to the right
        for bit in 5..32 {
            state ^= (state >> (bit - 5) & 1) << bit;
        }
        for bit in (0..32 - 17).rev() {
            state ^= (state >> (bit + 17) & 1) << bit;
        }
        for bit in 13..32 {
            state ^= (state >> (bit - 13) & 1) << bit;
        }
        state
    }

    #[test]
    fn first_states() {
        let mut state = 1;
        for expected in STATES {
            state = next_state(state);
            assert_eq!(state, expected);
        }
        // Marsaglia's own seed
        assert_eq!(next_state(2_463_534_242), 723_471_715);
    }

    /// The step is a sum, modulo 2, of what it makes of each bit.
    #[test]
    fn steps_by_bits() {
        let columns: [u32; 32] = std::array::from_fn(column);
        for state in many() {
            let ones = (0..32).filter(|&bit| state >> bit & 1 == 1);
            assert_eq!(next_state(state), ones.fold(0, |sum, bit| sum ^ columns[bit]), "{state}");
        }
    }

    /// No two states have the same one after them, so that none but 0 has 0.
    #[test]
    fn steps_can_be_taken_back() {
        assert_eq!((next_state(0), state_before(0)), (0, 0));
        for state in many() {
            assert_ne!(next_state(state), 0, "{state}");
            assert_eq!(state_before(next_state(state)), state);
            assert_eq!(next_state(state_before(state)), state);
        }
    }

    #[test]
    fn symbols_are_the_states_modulo_the_words() {
        for n in FEWEST..=MOST {
            let words = words(n).unwrap();
            let mut list = [u32::MAX; 5];
            assert_eq!(load(n, 1, &mut list), Ok(STATES[4]));
            assert_eq!(list, STATES.map(|state| state % words));
        }
        // K(5) is 14
        let mut list = [0; 4];
        assert_eq!(load(5, 1, &mut list), Ok(307_599_695));
        assert_eq!(list, [1, 3, 13, 11]);
    }

    #[test]
    fn cut_anywhere_in_two() {
        for n in FEWEST..=MOST {
            for seed in [1, 2, 1 << 31, 2_463_534_242, u32::MAX] {
                let mut whole = [0; 24];
                let last = load(n, seed, &mut whole);
                for cut in 0..=whole.len() {
                    let mut list = [u32::MAX; 24];
                    let (first, second) = list.split_at_mut(cut);
                    let between = load(n, seed, first).unwrap();
                    assert_eq!(load(n, between, second), last);
                    assert_eq!(list, whole, "n = {n}, seed {seed}, cut at {cut}");
                }
            }
        }
    }

    #[test]
    fn an_empty_list() {
        for n in FEWEST..=MOST {
            for seed in [1, 270_369, u32::MAX] {
                assert_eq!(load(n, seed, &mut []), Ok(seed));
            }
        }
        assert_eq!(load(2, 1, &mut []), Err(Refusal::Size));
        assert_eq!(load(3, 0, &mut []), Err(Refusal::Seed));
    }

    #[test]
    fn refusals() {
        let mut list = [77; 5];
        for n in [0, 1, 2, 13, 14, 255, 256, 259, (1 << 32) + 3, usize::MAX] {
            // the size is named first
            for seed in [0, 1] {
                assert_eq!(load(n, seed, &mut list), Err(Refusal::Size), "n = {n}");
            }
        }
        for n in FEWEST..=MOST {
            assert_eq!(load(n, 0, &mut list), Err(Refusal::Seed));
        }
        assert_eq!(list, [77; 5]);
        assert_eq!((Refusal::Size.number(), Refusal::Seed.number()), (1, 21));
    }
}
