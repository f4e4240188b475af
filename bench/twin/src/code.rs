//! The one-error code (construction 8, code C1): codewords, their numbers, the decoder.

use crate::order::{Coordinates, Order, size};
use crate::refusal::Refusal;
use crate::{FEWEST, MOST};

/// What a reading says of the order that it met.
#[derive(Clone, Copy, Debug, PartialEq, Eq)]
pub enum Verdict {
    Clean,
    /// Ranks `place` and `place` + 1 were exchanged.
    PutRight {
        place: usize,
    },
}

/// The codeword that an order reads as.
#[derive(Clone, Copy, Debug, PartialEq, Eq)]
pub struct Reading {
    pub symbol: u32,
    pub verdict: Verdict,
    pub codeword: Order,
}

/// The weighted sum of a codeword's coordinates is divisible by this.
pub const fn modulus(n: usize) -> usize {
    2 * n - 1
}

/// The number of counts: n rows of 2n - 1 for each n.
const ENTRIES: usize = FIRST[MOST + 1];

/// Where the rows of n begin.
const FIRST: [usize; MOST + 2] = {
    let mut first = [0; MOST + 2];
    let mut n = FEWEST;
    while n <= MOST {
        first[n + 1] = first[n] + n * modulus(n);
        n += 1;
    }
    first
};

/// For each n, each start i from 1 to n and each residue r: the number of ways to choose coordinates
/// i to n - 1 whose weighted sum leaves r.
static COUNTS: [u32; ENTRIES] = {
    let mut counts = [0; ENTRIES];
    let mut n = FEWEST;
    while n <= MOST {
        let m = modulus(n);
        // for start n nothing is chosen
        let mut row = FIRST[n] + (n - 1) * m;
        counts[row] = 1;
        let mut i = n - 1;
        while i >= 1 {
            row -= m;
            let mut r = 0;
            while r < m {
                let mut value = 0;
                while value <= i {
                    counts[row + r] += counts[row + m + (r + i * (m - value)) % m];
                    value += 1;
                }
                r += 1;
            }
            i -= 1;
        }
        n += 1;
    }
    counts
};

/// The rows of n for starts 2 to n: at place i - 1 the counts for what follows coordinate i.
fn tails(n: usize) -> impl Iterator<Item = &'static [u32]> {
    let m = modulus(n);
    COUNTS[FIRST[n] + m..FIRST[n + 1]].chunks_exact(m)
}

/// K(n), the number of codewords.
pub fn words(n: usize) -> Result<u32, Refusal> {
    size(n)?;
    Ok(COUNTS[FIRST[n]])
}

/// The codeword of a number.
pub fn codeword(n: usize, symbol: u32) -> Result<Order, Refusal> {
    if symbol >= words(n)? {
        return Err(Refusal::NoSymbol);
    }
    let m = modulus(n);
    let mut coordinates = Coordinates::zero(n as u8);
    // how many of the words that agree so far come before this one
    let mut before = symbol;
    // what the coordinates still to be chosen must leave
    let mut residue = 0;
    for (i, (coordinate, tail)) in (1..).zip(coordinates.values_mut().iter_mut().zip(tails(n))) {
        let mut value = 0;
        while before >= tail[residue] {
            before -= tail[residue];
            residue = less(residue, i, m);
            value += 1;
        }
        *coordinate = value;
    }
    Ok(coordinates.order())
}

/// The number of the codeword with these coordinates.
fn number(coordinates: &Coordinates) -> u32 {
    let n = coordinates.n();
    let m = modulus(n);
    let mut before = 0;
    let mut residue = 0;
    for (i, (&coordinate, tail)) in (1..).zip(coordinates.values().iter().zip(tails(n))) {
        for _ in 0..coordinate {
            before += tail[residue];
            residue = less(residue, i, m);
        }
    }
    before
}

/// residue - i, modulo m.
fn less(residue: usize, i: usize, m: usize) -> usize {
    if residue >= i { residue - i } else { residue + m - i }
}

/// The codeword at distance 0 or 1 from `order`, with its number.
///
/// A neighbour exchange changes one coordinate i by one, that of the greater cell i + 1, and so the
/// syndrome by i or by -i; these 2n - 2 changes are all different.
pub fn decode(order: &Order) -> Result<Reading, Refusal> {
    let n = order.n();
    let m = modulus(n);
    let (mut coordinates, sum) = order.sweep();
    let syndrome = sum as usize % m;
    if syndrome == 0 {
        return Ok(Reading { symbol: number(&coordinates), verdict: Verdict::Clean, codeword: *order });
    }
    // coordinate i is one too many: cell i + 1 stands just before a lower cell that it should follow;
    // or one too few: just after one that it should precede
    let too_many = syndrome < n;
    let i = if too_many { syndrome } else { m - syndrome };
    let greater = i as u8 + 1;
    let (greater_at, lower_at) = if too_many { (0, 1) } else { (1, 0) };
    let mut neighbours = order.cells().windows(2);
    let before = neighbours.position(|pair| pair[greater_at] == greater && pair[lower_at] < greater);
    let place = before.ok_or(Refusal::Lost)? + 1;
    let coordinate = &mut coordinates.values_mut()[i - 1];
    *coordinate = if too_many { *coordinate - 1 } else { *coordinate + 1 };
    Ok(Reading {
        symbol: number(&coordinates),
        verdict: Verdict::PutRight { place },
        codeword: order.exchanged(place),
    })
}

#[cfg(test)]
mod tests {
    use super::*;

    fn order(cells: &[u8]) -> Order {
        Order::new(cells).unwrap()
    }

    /// All orders of n cells.
    fn orders(n: usize) -> Vec<Order> {
        let mut lists = vec![vec![]];
        for cell in 1..=n as u8 {
            lists = lists
                .iter()
                .flat_map(|list: &Vec<u8>| {
                    (0..=list.len()).map(move |at| {
                        let mut list = list.clone();
                        list.insert(at, cell);
                        list
                    })
                })
                .collect();
        }
        lists.iter().map(|list| order(list)).collect()
    }

    fn ranks(order: &Order) -> Vec<usize> {
        (1..=order.n() as u8).map(|cell| order.rank(cell).unwrap()).collect()
    }

    /// The definition: pairs listed oppositely.
    fn opposed(a: &[usize], b: &[usize]) -> usize {
        let pairs = (0..a.len()).flat_map(|i| (0..i).map(move |j| (i, j)));
        pairs.filter(|&(i, j)| (a[i] < a[j]) != (b[i] < b[j])).count()
    }

    /// The definition: cells below i + 1 that stand after cell i + 1.
    fn coordinates(ranks: &[usize]) -> Vec<u8> {
        (1..ranks.len()).map(|i| ranks[..i].iter().filter(|&&rank| rank > ranks[i]).count() as u8).collect()
    }

    /// All codewords of n in dictionary order of their coordinates.
    fn all_words(n: usize) -> Vec<Order> {
        let mut words: Vec<_> = orders(n)
            .into_iter()
            .map(|order| (coordinates(&ranks(&order)), order))
            .filter(|(values, _)| {
                let sum: usize = (1..).zip(values).map(|(i, &value)| i * usize::from(value)).sum();
                sum.is_multiple_of(2 * n - 1)
            })
            .collect();
        words.sort_by(|a, b| a.0.cmp(&b.0));
        words.into_iter().map(|(_, order)| order).collect()
    }

    #[test]
    fn table_of_counts() {
        assert_eq!(ENTRIES, 1215);
        let mut factorial = 2u32;
        for n in FEWEST..=MOST {
            factorial *= n as u32;
            let row = &COUNTS[FIRST[n]..][..modulus(n)];
            assert_eq!(row.iter().sum::<u32>(), factorial, "n = {n}");
        }
    }

    #[test]
    fn coordinates_and_distance_of_all_orders() {
        for n in 3..=5 {
            let orders = orders(n);
            for a in &orders {
                assert_eq!(a.coordinates().values(), coordinates(&ranks(a)));
                assert_eq!(a.coordinates().order(), *a);
                for b in &orders {
                    assert_eq!(a.distance(b), Ok(opposed(&ranks(a), &ranks(b)) as u32));
                }
            }
        }
    }

    #[test]
    fn numbering_of_all_words() {
        for n in 3..=7 {
            let found = all_words(n);
            assert_eq!(words(n), Ok(found.len() as u32));
            for (symbol, word) in (0..).zip(&found) {
                assert_eq!(codeword(n, symbol), Ok(*word));
            }
            assert_eq!(codeword(n, found.len() as u32), Err(Refusal::NoSymbol));
        }
    }

    #[test]
    fn decoding_of_all_orders() {
        for n in 3..=7 {
            let words: Vec<_> = all_words(n).into_iter().map(|word| (ranks(&word), word)).collect();
            for order in orders(n) {
                let read = ranks(&order);
                let mut near = (0..).zip(&words).filter(|(_, (word, _))| opposed(word, &read) <= 1);
                let expected = near.next().map(|(symbol, &(_, codeword))| {
                    let place = (1..=n).find(|&k| order.cells()[k - 1] != codeword.cells()[k - 1]);
                    let verdict = place.map_or(Verdict::Clean, |place| Verdict::PutRight { place });
                    Reading { symbol, verdict, codeword }
                });
                assert!(near.next().is_none(), "{order:?} is near two words");
                assert_eq!(decode(&order), expected.ok_or(Refusal::Lost), "{order:?}");
            }
        }
    }

    /// Larger n: spread symbols go there and back, and every single exchange is put right.
    #[test]
    fn numbering_and_exchanges_of_larger_n() {
        for n in 8..=MOST {
            let words = words(n).unwrap();
            let ends = [0, 1, words - 2, words - 1];
            for symbol in ends.into_iter().chain((0..words).step_by(words as usize / 500 + 1)) {
                let word = codeword(n, symbol).unwrap();
                let clean = Reading { symbol, verdict: Verdict::Clean, codeword: word };
                assert_eq!(decode(&word), Ok(clean));
                for place in 1..n {
                    let verdict = Verdict::PutRight { place };
                    assert_eq!(decode(&word.exchanged(place)), Ok(Reading { verdict, ..clean }));
                }
            }
        }
    }

    #[test]
    fn case_3_put_right() {
        let reading = decode(&order(&[3, 4, 1, 2])).unwrap();
        assert_eq!(reading.codeword, order(&[3, 1, 4, 2]));
        assert_eq!(reading.verdict, Verdict::PutRight { place: 2 });
    }

    #[test]
    fn case_5_words_of_4() {
        let found: Vec<_> = (0..4).map(|symbol| codeword(4, symbol).unwrap()).collect();
        let expected = [[1, 2, 3, 4], [3, 1, 4, 2], [2, 4, 1, 3], [4, 3, 2, 1]];
        assert_eq!(found, expected.map(|cells| order(&cells)));
        assert_eq!(codeword(4, 4), Err(Refusal::NoSymbol));
    }

    #[test]
    fn cases_6_and_7_lost() {
        assert_eq!(decode(&order(&[4, 1, 2, 3])), Err(Refusal::Lost));
        let near_in_coordinates_alone = order(&[3, 2, 4, 1]);
        assert_eq!(near_in_coordinates_alone.coordinates().values(), [1, 2, 1]);
        assert_eq!(decode(&near_in_coordinates_alone), Err(Refusal::Lost));
    }

    #[test]
    fn sizes() {
        assert_eq!(words(2), Err(Refusal::Size));
        assert_eq!(words(13), Err(Refusal::Size));
        assert_eq!(codeword(13, 0), Err(Refusal::Size));
    }
}
