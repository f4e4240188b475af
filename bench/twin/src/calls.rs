//! The program `rmcalls`: call records in, a line of text for each out.

use crate::group::{ENDURANCE, Group};
use crate::refusal::Refusal;

/// Only this many bytes of input are looked at.
pub const LIMIT: usize = 65_536;

/// One call record, its unused fields checked.
#[derive(Clone, Copy, Debug, PartialEq, Eq)]
enum Call {
    Open { n: u32 },
    Store { symbol: u32 },
    Scrub,
    Leak { cell: u8, d: u32 },
    Wear { cell: u8, cap: u32 },
    Erase,
    Read,
}

/// What an accepted call adds to its line.
#[derive(Clone, Copy, Default)]
struct Answer {
    symbol: u32,
    pulses: u32,
}

/// Kind, cell, two zero bytes, value with the low byte first.
fn parse(record: &[u8; 8]) -> Result<Call, Refusal> {
    let [kind, cell, 0, 0, value @ ..] = *record else {
        return Err(Refusal::BadRecord);
    };
    match (kind, cell, u32::from_le_bytes(value)) {
        (0, 0, n) => Ok(Call::Open { n }),
        (1, 0, symbol) => Ok(Call::Store { symbol }),
        (2, 0, 0) => Ok(Call::Scrub),
        (3, cell, d) => Ok(Call::Leak { cell, d }),
        (4, cell, cap) => Ok(Call::Wear { cell, cap }),
        (5, 0, 0) => Ok(Call::Erase),
        (6, 0, 0) => Ok(Call::Read),
        _ => Err(Refusal::BadRecord),
    }
}

/// `None` stands for the all-zero record.
fn apply(group: &mut Option<Group>, record: &[u8; 8]) -> Result<Answer, Refusal> {
    let call = parse(record)?;
    if let Call::Open { n } = call {
        *group = Some(Group::open(n, ENDURANCE)?);
        return Ok(Answer::default());
    }
    let group = group.as_mut().ok_or(Refusal::Size)?;
    let mut answer = Answer::default();
    match call {
        Call::Open { .. } => {}
        Call::Store { symbol } => answer = Answer { symbol, pulses: group.store(symbol)?.pulses },
        Call::Scrub => {
            let scrubbed = group.scrub()?;
            answer = Answer { symbol: scrubbed.symbol, pulses: scrubbed.written.pulses };
        }
        Call::Leak { cell, d } => group.leak(cell, d)?,
        Call::Wear { cell, cap } => group.wear(cell, cap)?,
        Call::Erase => group.erase(),
        Call::Read => answer.symbol = group.read()?.symbol,
    }
    Ok(answer)
}

/// The whole text that the program prints for `input`.
pub fn run(input: &[u8]) -> Vec<u8> {
    // enough for the longest line: five numbers, twelve levels of four digits, a byte after each
    const LINE: usize = 100;

    let (records, left) = input[..input.len().min(LIMIT)].as_chunks::<8>();
    let mut text = Vec::with_capacity(LINE * (records.len() + 1));
    let mut group = None;
    let mut sum = 0;
    for (position, record) in (1..).zip(records) {
        let (refusal, answer) = match apply(&mut group, record) {
            Ok(answer) => (0, answer),
            Err(refusal) => (refusal.number(), Answer::default()),
        };
        sum += answer.pulses;
        let kind = record[0];
        for number in [position, kind.into(), refusal.into(), answer.symbol, answer.pulses] {
            decimal(&mut text, number, b' ');
        }
        match &group {
            None => text.extend_from_slice(b"-\n"),
            Some(group) => {
                for &level in group.levels() {
                    decimal(&mut text, level.into(), b',');
                }
                // the last comma ends the line
                text.pop();
                text.push(b'\n');
            }
        }
    }
    if !left.is_empty() {
        text.extend_from_slice(b"left ");
        decimal(&mut text, left.len() as u32, b'\n');
    }
    text.extend_from_slice(b"sum ");
    decimal(&mut text, sum, b'\n');
    text
}

/// The four digits of each number below 10,000.
static DIGITS: [[u8; 4]; 10_000] = {
    let mut digits = [[b'0'; 4]; 10_000];
    let mut number = 0;
    while number < digits.len() {
        let mut rest = number;
        let mut place = 4;
        while place > 0 {
            place -= 1;
            digits[number][place] += (rest % 10) as u8;
            rest /= 10;
        }
        number += 1;
    }
    digits
};

/// Adds a number in base ten and the byte after it.
#[inline]
fn decimal(text: &mut Vec<u8>, number: u32, after: u8) {
    let Some(&digits) = DIGITS.get(number as usize) else {
        return long_decimal(text, number, after);
    };
    // eight bytes at once: the leading zeros are shifted out, and what is too much given back
    let zeros = usize::from(number < 1000) + usize::from(number < 100) + usize::from(number < 10);
    let bytes = u64::from(after) << 32 | u64::from(u32::from_le_bytes(digits));
    text.extend_from_slice(&(bytes >> (8 * zeros)).to_le_bytes());
    text.truncate(text.len() - 3 - zeros);
}

fn long_decimal(text: &mut Vec<u8>, mut number: u32, after: u8) {
    let mut bytes = [after; 11];
    let mut first = bytes.len() - 1;
    while number > 0 {
        first -= 1;
        bytes[first] = b'0' + (number % 10) as u8;
        number /= 10;
    }
    text.extend_from_slice(&bytes[first..]);
}

#[cfg(test)]
mod tests {
    use super::*;

    fn record(kind: u8, cell: u8, value: u32) -> [u8; 8] {
        let [a, b, c, d] = value.to_le_bytes();
        [kind, cell, 0, 0, a, b, c, d]
    }

    fn printed(records: &[[u8; 8]]) -> String {
        String::from_utf8(run(records.as_flattened())).unwrap()
    }

    #[test]
    fn the_printed_example() {
        let calls = [record(0, 0, 3), record(1, 0, 1), record(3, 3, 1), record(2, 0, 0), record(6, 0, 0)];
        let expected = "\
1 0 0 0 0 0,0,0
2 1 0 1 3 0,1,2
3 3 0 0 0 0,1,1
4 2 0 1 1 0,1,2
5 6 0 1 0 0,1,2
sum 4
";
        assert_eq!(printed(&calls), expected);
    }

    #[test]
    fn without_a_group() {
        let calls = [
            record(6, 0, 0),
            record(0, 0, 2),
            record(0, 0, 259),
            record(7, 0, 0),
            record(255, 0, 0),
            record(1, 1, 0),
            record(2, 0, 1),
            [0, 0, 1, 0, 3, 0, 0, 0],
            [0, 0, 0, 1, 3, 0, 0, 0],
            record(3, 0, 0),
        ];
        let expected = "\
1 6 1 0 0 -
2 0 1 0 0 -
3 0 1 0 0 -
4 7 12 0 0 -
5 255 12 0 0 -
6 1 12 0 0 -
7 2 12 0 0 -
8 0 12 0 0 -
9 0 12 0 0 -
10 3 1 0 0 -
sum 0
";
        assert_eq!(printed(&calls), expected);
    }

    #[test]
    fn refusals() {
        let calls = [
            record(0, 0, 4),
            record(6, 0, 0),
            record(1, 0, 4),
            record(1, 0, u32::MAX),
            record(1, 0, 3),
            record(0, 0, 13),
            record(3, 0, 1),
            record(3, 5, 1),
            record(4, 2, 4096),
            record(3, 4, 2),
            record(3, 4, 1),
            record(6, 0, 0),
            record(2, 0, 0),
            record(4, 4, 3),
            record(1, 0, 3),
            record(4, 4, 2),
            record(4, 4, 3),
            record(1, 0, 3),
            record(5, 1, 0),
            record(5, 0, 0),
            record(0, 0, 3),
        ];
        let expected = "\
1 0 0 0 0 0,0,0,0
2 6 6 0 0 0,0,0,0
3 1 5 0 0 0,0,0,0
4 1 5 0 0 0,0,0,0
5 1 0 3 6 0,1,2,3
6 0 1 0 0 0,1,2,3
7 3 3 0 0 0,1,2,3
8 3 3 0 0 0,1,2,3
9 4 9 0 0 0,1,2,3
10 3 0 0 0 0,1,2,1
11 3 0 0 0 0,1,2,0
12 6 7 0 0 0,1,2,0
13 2 7 0 0 0,1,2,0
14 4 0 0 0 0,1,2,0
15 1 0 3 3 0,1,2,3
16 4 0 0 0 0,1,2,3
17 4 9 0 0 0,1,2,3
18 1 8 0 0 0,1,2,3
19 5 12 0 0 0,1,2,3
20 5 0 0 0 0,0,0,0
21 0 0 0 0 0,0,0
sum 9
";
        assert_eq!(printed(&calls), expected);
    }

    #[test]
    fn a_spent_cell() {
        let (first, last) = (record(1, 0, 0), record(1, 0, 20_826_155));
        let mut calls = vec![record(0, 0, 12)];
        calls.extend([first, last].into_iter().cycle().take(370));
        // cell 12 has used 4,070 pulses, and takes as many 244 times more
        calls.extend([record(3, 12, 4070), last].into_iter().cycle().take(2 * 244));
        calls.extend([record(3, 12, 2850), last, record(3, 12, 1), record(2, 0, 0), last, first]);
        calls.extend([record(5, 0, 0), last, record(0, 0, 12), last]);
        let expected = "
861 1 0 20826155 2850 4059,4060,4061,4062,4063,4064,4065,4066,4067,4068,4069,4070
862 3 0 0 0 4059,4060,4061,4062,4063,4064,4065,4066,4067,4068,4069,4069
863 2 19 0 0 4059,4060,4061,4062,4063,4064,4065,4066,4067,4068,4069,4069
864 1 19 0 0 4059,4060,4061,4062,4063,4064,4065,4066,4067,4068,4069,4069
865 1 0 0 121 4080,4079,4078,4077,4076,4075,4074,4073,4072,4071,4070,4069
866 5 0 0 0 0,0,0,0,0,0,0,0,0,0,0,0
867 1 19 0 0 0,0,0,0,0,0,0,0,0,0,0,0
868 0 0 0 0 0,0,0,0,0,0,0,0,0,0,0,0
869 1 0 20826155 66 0,1,2,3,4,5,6,7,8,9,10,11
sum 1044891
";
        assert!(printed(&calls).ends_with(expected));
    }

    #[test]
    fn decimals() {
        let around = (0..=9).flat_map(|zeros| [10u32.pow(zeros) - 1, 10u32.pow(zeros)]);
        for number in around.chain([4095, 402_554_880, u32::MAX]) {
            let mut text = vec![];
            decimal(&mut text, number, b',');
            assert_eq!(text, format!("{number},").as_bytes());
        }
    }

    #[test]
    fn leftover_bytes_and_the_limit() {
        assert_eq!(run(b""), b"sum 0\n");
        assert_eq!(run(&[1; 7]), b"left 7\nsum 0\n");
        assert_eq!(run(&[255; 9]), b"1 255 12 0 0 -\nleft 1\nsum 0\n");
        let long = run(&[6; LIMIT + 3]);
        assert_eq!(long, run(&[6; LIMIT]));
        assert!(long.ends_with(b"8192 6 12 0 0 -\nsum 0\n"));
    }
}
