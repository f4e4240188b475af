//! The engine against its twin: streams of call records, long and short, valid and damaged. The same
//! streams every time.

use engine::{room, run, run_into, words};
use std::collections::BTreeSet;
use twin::code::codeword;
use twin::group::{ENDURANCE, Group};

/// The most bytes of an input that are read.
const LIMIT: usize = 65_536;

/// The bytes of a call record.
const RECORD: usize = 8;

/// A 64-bit linear congruential generator; its high half is used.
struct Chance(u64);

impl Chance {
    fn any(&mut self) -> u32 {
        self.0 = self.0.wrapping_mul(6_364_136_223_846_793_005).wrapping_add(1_442_695_040_888_963_407);
        (self.0 >> 32) as u32
    }

    fn below(&mut self, bound: usize) -> usize {
        ((u64::from(self.any()) * bound as u64) >> 32) as usize
    }

    fn one_of<T: Copy>(&mut self, choices: &[T]) -> T {
        choices[self.below(choices.len())]
    }

    /// `count` bytes, each below `bound`.
    fn bytes(&mut self, count: usize, bound: usize) -> Vec<u8> {
        (0..count).map(|_| self.below(bound) as u8).collect()
    }

    /// One record of any kind for a group of n cells, well formed and mostly accepted.
    fn record(&mut self, n: usize) -> [u8; RECORD] {
        let symbols = twin::code::words(n).expect("n is 3 to 12");
        let cell = 1 + self.below(n) as u8;
        let (kind, cell, value) = match self.below(20) {
            0..6 => (1, 0, self.below(symbols as usize) as u32),
            6..9 => (2, 0, 0),
            9..12 => (3, cell, self.below(4) as u32),
            12 => (3, self.one_of(&[0, cell, n as u8 + 1, 255]), self.any()),
            13 => (4, cell, self.one_of(&[4095, 4096, 2000, 200, 60, 30, 15])),
            14 => (4, self.one_of(&[0, cell, n as u8 + 1]), self.any() % 4200),
            15 => (5, 0, 0),
            16 => (1, 0, self.one_of(&[0, symbols - 1, symbols, u32::MAX])),
            17 if self.below(4) == 0 => (0, 0, self.one_of(&[n as u32, n as u32, 2, 13, 256 + n as u32])),
            _ => (6, 0, 0),
        };
        call(kind, cell, value)
    }

    /// An open of n, and records after it.
    fn stream(&mut self, n: usize, records: usize) -> Vec<u8> {
        let mut stream = vec![0, 0, 0, 0, n as u8, 0, 0, 0];
        stream.extend((1..records).flat_map(|_| self.record(n)));
        stream
    }

    /// A bit flipped, a byte changed, lost or added, or all records moved.
    fn damage(&mut self, stream: &mut Vec<u8>) {
        let at = self.below(stream.len());
        match self.below(8) {
            0..4 => stream[at] ^= 1 << self.below(8),
            4 => stream[at] = self.any() as u8,
            5 => drop(stream.remove(at)),
            6 => stream.insert(at, self.one_of(&[0, 1, 255])),
            _ => stream.rotate_left(at / RECORD * RECORD),
        }
    }
}

fn call(kind: u8, cell: u8, value: u32) -> [u8; RECORD] {
    let [a, b, c, d] = value.to_le_bytes();
    [kind, cell, 0, 0, a, b, c, d]
}

/// An open of n, and calls after which the top cell of the last word has so many pulses left.
fn nearly_spent(n: usize, left: u32) -> Vec<u8> {
    let last = twin::code::words(n).expect("n is 3 to 12") - 1;
    let top = codeword(n, last).expect("a symbol").cells()[0];
    let at = usize::from(top) - 1;
    let mut group = Group::open(n as u32, ENDURANCE).expect("n is 3 to 12");
    let mut stream = call(0, 0, n as u32).to_vec();
    // the higher the levels, the more pulses a leak to the ground costs
    for symbol in [0, last].into_iter().cycle().take(300) {
        stream.extend(call(1, 0, symbol));
        group.store(symbol).expect("not worn yet");
    }
    while group.used()[at] < ENDURANCE - left {
        let d = u32::from(group.levels()[at]).min(ENDURANCE - left - group.used()[at]);
        stream.extend(call(3, top, d));
        stream.extend(call(1, 0, last));
        group.leak(top, d).expect("a cell");
        group.store(last).expect("not spent yet");
    }
    stream
}

/// Both print the same for `input`; the text.
fn same(input: &[u8]) -> Vec<u8> {
    let (engine, twin) = (run(input), twin::run(input));
    if engine != twin {
        let (engine, twin) = (String::from_utf8_lossy(&engine), String::from_utf8_lossy(&twin));
        let first = engine.lines().zip(twin.lines()).find(|(a, b)| a != b);
        panic!("of {} bytes, {input:?}:\nengine and twin differ at {first:?}", input.len());
    }
    engine
}

/// The kinds and refusals in the lines of records.
fn answers(text: &[u8]) -> impl Iterator<Item = (u8, u8)> {
    let text = str::from_utf8(text).expect("ASCII");
    text.lines().filter(|line| line.starts_with(|c: char| c.is_ascii_digit())).map(|line| {
        let mut numbers = line.split(' ').skip(1).map(|word| word.parse().expect("a number below 256"));
        (numbers.next().expect("a kind"), numbers.next().expect("a refusal"))
    })
}

#[test]
fn the_printed_example() {
    let calls = [
        [0, 0, 0, 0, 3, 0, 0, 0],
        [1, 0, 0, 0, 1, 0, 0, 0],
        [3, 3, 0, 0, 1, 0, 0, 0],
        [2, 0, 0, 0, 0, 0, 0, 0],
        [6, 0, 0, 0, 0, 0, 0, 0],
    ];
    let expected = b"\
1 0 0 0 0 0,0,0
2 1 0 1 3 0,1,2
3 3 0 0 0 0,1,1
4 2 0 1 1 0,1,2
5 6 0 1 0 0,1,2
sum 4
";
    assert_eq!(same(calls.as_flattened()), expected);
}

/// Every length from 0 to 64: bytes of any value, small bytes, and mostly zeros.
#[test]
fn random_bytes() {
    let mut chance = Chance(1);
    for length in 0..=64 {
        for _ in 0..100 {
            same(&chance.bytes(length, 256));
            same(&chance.bytes(length, 8));
            let mut sparse = chance.bytes(length, 14);
            sparse.iter_mut().for_each(|byte| *byte *= u8::from(chance.below(4) == 0));
            same(&sparse);
        }
    }
}

/// Streams of all kinds for each n, as they are and damaged. All refusals that a record can meet are
/// met: 2, 4, 10 and 11 are not among them, since no record carries a group, an order, a push list or
/// coordinates. 19 takes more records: see `spent_groups`.
#[test]
fn valid_and_damaged_streams() {
    let mut chance = Chance(2);
    let mut met = BTreeSet::new();
    for n in 3..=12 {
        for _ in 0..100 {
            let records = 1 + chance.below(100);
            let stream = chance.stream(n, records);
            met.extend(answers(&same(&stream)));
            // shifted by a byte either way, and cut short everywhere in the last record
            same(&stream[1..]);
            same(&[&[0], &stream[..]].concat());
            (1..RECORD).for_each(|cut| drop(same(&stream[..stream.len() - cut])));
            for _ in 0..10 {
                let mut damaged = stream.clone();
                for _ in 0..1 + chance.below(4) {
                    chance.damage(&mut damaged);
                }
                met.extend(answers(&same(&damaged)));
                damaged.truncate(chance.below(damaged.len()));
                same(&damaged);
            }
        }
    }
    let each = [
        (0, &[0, 1, 12][..]),
        (1, &[0, 1, 5, 8, 12]),
        (2, &[0, 1, 6, 7, 8, 12]),
        (3, &[0, 1, 3, 12]),
        (4, &[0, 1, 3, 9, 12]),
        (5, &[0, 1, 12]),
        (6, &[0, 1, 6, 7, 12]),
    ];
    let each =
        each.into_iter().flat_map(|(kind, refusals)| refusals.iter().map(move |&refusal| (kind, refusal)));
    let known: BTreeSet<_> = met.iter().copied().filter(|&(kind, _)| kind <= 6).collect();
    assert_eq!(known, each.collect());
    assert!(met.iter().all(|&(kind, refusal)| kind <= 6 || refusal == 12));
    assert!(met.len() > known.len());
}

/// 65,536 bytes, somewhat fewer, and more, of which no more are read.
#[test]
fn long_streams() {
    let mut chance = Chance(3);
    for n in 3..=12 {
        let stream = chance.stream(n, 2 * LIMIT / RECORD);
        let most = same(&stream[..LIMIT]);
        assert_eq!(answers(&most).count(), LIMIT / RECORD);
        for length in [LIMIT + 1, LIMIT + 7, LIMIT + 8, 2 * LIMIT] {
            assert_eq!(same(&stream[..length]), most);
        }
        for length in [LIMIT - 1, LIMIT - 7, LIMIT - 8, LIMIT / 2 + 3] {
            assert_ne!(same(&stream[..length]), most);
        }
        let mut damaged = stream;
        for _ in 0..200 {
            chance.damage(&mut damaged);
        }
        same(&damaged);
    }
    for byte in [0, 6, 255] {
        same(&vec![byte; LIMIT]);
        same(&vec![byte; LIMIT + 1]);
    }
}

/// Stores of the first and the last word in turn, until the group is worn: the highest levels.
#[test]
fn worn_groups() {
    for n in 3..=12 {
        let last = twin::code::words(n).expect("n is 3 to 12") - 1;
        let mut stream = vec![0, 0, 0, 0, n as u8, 0, 0, 0];
        for symbol in [0, last].into_iter().cycle().take(LIMIT / RECORD - 1) {
            stream.extend(call(1, 0, symbol));
        }
        assert!(answers(&same(&stream)).any(|answer| answer == (1, 8)), "n = {n}");
    }
}

/// All kinds of calls on a group of which a cell has few pulses left, or none.
#[test]
fn spent_groups() {
    let mut chance = Chance(5);
    for n in 3..=12 {
        let mut met = BTreeSet::new();
        for left in [0, 1, 2, 30] {
            let mut stream = nearly_spent(n, left);
            let length = stream.len();
            for _ in 0..10 {
                stream.truncate(length);
                stream.extend((0..100).flat_map(|_| chance.record(n)));
                met.extend(answers(&same(&stream)));
            }
        }
        assert!(met.contains(&(1, 19)) && met.contains(&(2, 19)), "n = {n}");
    }
}

/// A buffer that is too short stays as it was; a longer one keeps what comes after the text.
#[test]
fn buffers() {
    let mut chance = Chance(4);
    for length in (0..=64).chain([1000, LIMIT - 1, LIMIT, LIMIT + 1, 2 * LIMIT]) {
        let n = 3 + chance.below(10);
        let mut input = chance.stream(n, length / RECORD + 1);
        input.truncate(length);
        let text = same(&input);
        let enough = room(length);
        for short in [0, 1, text.len() - 1, text.len(), enough / 2, enough - 1] {
            let before = chance.bytes(short.min(enough - 1), 256);
            let mut out = before.clone();
            assert_eq!(run_into(&input, &mut out), None);
            assert!(out == before, "{short} bytes are touched");
        }
        for long in [enough, enough + 1, enough + 100] {
            let before = chance.bytes(long, 256);
            let mut out = before.clone();
            let size = run_into(&input, &mut out).expect("long enough").get();
            assert!(out[..size] == text && out[size..] == before[size..], "{long} bytes for {length}");
        }
    }
}

#[test]
fn rooms() {
    let sizes = (0..=2 * LIMIT).chain([1 << 20, 1 << 32, usize::MAX / 16, usize::MAX - 1, usize::MAX]);
    for size in sizes {
        assert_eq!(room(size), 16 * size.min(LIMIT) + 64);
    }
}

#[test]
fn numbers_of_codewords() {
    let around = [1 << 8, 1 << 16, 1 << 32, usize::MAX - 15].into_iter().flat_map(|high| high..=high + 15);
    for n in (0..=1000).chain(around) {
        assert_eq!(words(n), twin::code::words(n).ok(), "n = {n}");
    }
    assert_eq!(words(3), Some(2));
    assert_eq!(words(4), Some(4));
}
