//! The engine's windows against the twin's: all widths and steps, within the limits and outside, and
//! all lengths; both lists short, as long as needed and longer. The same runs every time.

use std::collections::BTreeSet;
use twin::refusal::Refusal;

/// What a call answers and leaves.
#[derive(Debug, PartialEq)]
struct Left {
    answer: Result<usize, u8>,
    numbers: Vec<u32>,
    scratch: Vec<u16>,
}

/// A 64-bit linear congruential generator; its high half is used.
struct Chance(u64);

impl Chance {
    fn any(&mut self) -> u32 {
        self.0 = self.0.wrapping_mul(6_364_136_223_846_793_005).wrapping_add(1_442_695_040_888_963_407);
        (self.0 >> 32) as u32
    }

    fn below(&mut self, bound: u32) -> u32 {
        ((u64::from(self.any()) * u64::from(bound)) >> 32) as u32
    }

    /// Levels below a bound; under a small one many cells are level.
    fn levels(&mut self, len: usize, bound: u32) -> Vec<u16> {
        (0..len).map(|_| self.below(bound) as u16).collect()
    }

    /// As many different levels.
    fn different(&mut self, len: usize) -> Vec<u16> {
        let mut levels: Vec<u16> = (0..len as u16).map(|at| at * 31).collect();
        for last in (1..len).rev() {
            levels.swap(last, self.below(last as u32 + 1) as usize);
        }
        levels
    }

    /// Lists that hold something, as a caller's may.
    fn lent(&mut self, places: usize, cells: usize) -> (Vec<u32>, Vec<u16>) {
        ((0..places).map(|_| self.any()).collect(), (0..cells).map(|_| self.any() as u16).collect())
    }
}

/// Both answer the same and leave the same in both lists; what that is.
fn same(levels: &[u16], width: usize, step: usize, lent: &(Vec<u32>, Vec<u16>)) -> Left {
    let (mut numbers, mut scratch) = lent.clone();
    let answer = engine::windows(levels, width, step, &mut numbers, &mut scratch);
    let engine = Left { answer, numbers, scratch };
    let (mut numbers, mut scratch) = lent.clone();
    let answer = twin::windows::windows(levels, width, step, &mut numbers, &mut scratch);
    let twin = Left { answer: answer.map_err(Refusal::number), numbers, scratch };
    assert_eq!(engine, twin, "{levels:?}, {width} cells, {step} apart");
    engine
}

/// What a call may touch: nothing where it is refused, else the places of the windows and of the run.
fn untouched(left: &Left, levels: &[u16], lent: &(Vec<u32>, Vec<u16>)) {
    let (numbers, scratch) = lent;
    match left.answer {
        Ok(count) => {
            assert_eq!(left.numbers[count..], numbers[count..]);
            assert_eq!(left.scratch[..levels.len()], *levels);
            assert_eq!(left.scratch[levels.len()..], scratch[levels.len()..]);
        }
        Err(_) => assert!(left.numbers == *numbers && left.scratch == *scratch, "touched, though refused"),
    }
}

/// Calls with lists that are just long enough, longer, and short by one: one of them, the other, both.
fn all_lists(chance: &mut Chance, levels: &[u16], width: usize, step: usize, met: &mut BTreeSet<u8>) {
    let (len, count) = (levels.len(), levels.len().checked_div(step).unwrap_or(0));
    let (fewer, shorter) = (count.saturating_sub(1), len.saturating_sub(1));
    let rooms =
        [(count, len), (count + 3, len + 5), (fewer, len), (count, shorter), (fewer, shorter), (0, 0)];
    for (places, cells) in rooms {
        let lent = chance.lent(places, cells);
        let left = same(levels, width, step, &lent);
        untouched(&left, levels, &lent);
        met.insert(left.answer.err().unwrap_or(0));
        if places < count || cells < len {
            assert!(left.answer.is_err());
        }
    }
}

#[test]
fn all_widths_steps_and_lengths() {
    let mut chance = Chance(1);
    let mut met = BTreeSet::new();
    for len in 0..=130 {
        let runs = [chance.levels(len, 3), chance.levels(len, 4096), chance.different(len), vec![4095; len]];
        for width in 0..=14 {
            for step in 0..=13 {
                for levels in &runs {
                    all_lists(&mut chance, levels, width, step, &mut met);
                }
            }
        }
    }
    assert_eq!(met, BTreeSet::from([0, 13, 15]));
}

/// A level above 4,095 anywhere is refused as 13, whether the lists are long enough or not.
#[test]
fn levels_that_are_too_high() {
    let mut chance = Chance(2);
    for len in [3, 4, 12, 120, 127, 128] {
        for at in 0..len {
            for high in [4096, 4097, 8191, 32_767, 32_768, 65_535] {
                let mut levels = chance.levels(len, 4096);
                levels[at] = high;
                for (places, cells) in [(len, len), (0, len), (len, len - 1)] {
                    let lent = chance.lent(places, cells);
                    let left = same(&levels, 3, 1, &lent);
                    untouched(&left, &levels, &lent);
                    assert_eq!(left.answer, Err(13));
                }
            }
        }
    }
}

/// Widths and steps that are nowhere near the limits.
#[test]
fn far_outside() {
    let mut chance = Chance(3);
    let far = [128, 255, 256, 259, 1 << 16, (1 << 16) + 3, 1 << 32, (1 << 32) + 3, 1 << 63, usize::MAX];
    for value in far {
        for (width, step) in [(value, 3), (3, value), (value, value), (12, value), (value, 1)] {
            let lent = chance.lent(128, 128);
            let levels = chance.levels(120, 4096);
            let left = same(&levels, width, step, &lent);
            untouched(&left, &levels, &lent);
            assert_eq!(left.answer, Err(13), "{width}, {step}");
        }
    }
}

/// Every order of 3 to 5 cells, level cells too, in every window around a ring of that many.
#[test]
fn all_small_windows() {
    for width in 3..=5usize {
        for list in 0..width.pow(width as u32) {
            let digits = (0..width as u32).map(|at| list / width.pow(at) % width);
            let levels: Vec<u16> = digits.map(|digit| digit as u16).collect();
            let left = same(&levels, width, 1, &(vec![0; width], vec![0; width]));
            assert_eq!(left.answer, Ok(width));
        }
    }
}

/// The example of rm.h, worked out there.
#[test]
fn worked_by_hand() {
    let levels = [5, 9, 5, 2];
    let left = same(&levels, 3, 1, &(vec![7; 6], vec![8; 5]));
    assert_eq!(left.answer, Ok(4));
    assert_eq!(left.numbers, [3, 0, 4, 5, 7, 7]);
    assert_eq!(left.scratch, [5, 9, 5, 2, 8]);
    let left = same(&levels, 3, 2, &(vec![7; 2], vec![8; 4]));
    assert_eq!((left.answer, left.numbers), (Ok(2), vec![3, 4]));
    let left = same(&levels, 3, 3, &(vec![], vec![]));
    assert_eq!(left.answer, Err(13));
    let left = same(&levels, 3, 1, &(vec![7; 3], vec![8; 4]));
    assert_eq!(left.answer, Err(15));
}
