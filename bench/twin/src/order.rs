//! Orders of cells, their coordinates, and what two orders have between them.

use crate::refusal::Refusal;
use crate::{FEWEST, MOST};

/// The cells 1 to n from highest level to lowest; the cell in place k has rank k.
#[derive(Clone, Copy, Debug, PartialEq, Eq)]
pub struct Order {
    n: u8,
    cells: [u8; MOST],
}

/// Coordinate i, 0 to i, is the number of cells below i + 1 that stand after cell i + 1.
///
/// It is held at index i; index 0, which cell 1 would have, is always 0.
#[derive(Clone, Copy, Debug, PartialEq, Eq)]
pub struct Coordinates {
    n: u8,
    values: [u8; MOST],
}

/// n as a group may have it.
pub fn size(n: usize) -> Result<u8, Refusal> {
    if (FEWEST..=MOST).contains(&n) { Ok(n as u8) } else { Err(Refusal::Size) }
}

impl Order {
    /// The order that lists `cells`; n is their number.
    pub fn new(cells: &[u8]) -> Result<Order, Refusal> {
        let n = size(cells.len())?;
        let mut met = 0u32;
        for &cell in cells {
            if cell < 1 || cell > n || met & bit(cell) != 0 {
                return Err(Refusal::NoOrder);
            }
            met |= bit(cell);
        }
        Ok(Order::listing(n, cells.iter().copied()))
    }

    /// `cells` must list each of 1 to n once.
    pub(crate) fn listing(n: u8, cells: impl Iterator<Item = u8>) -> Order {
        let mut order = Order { n, cells: [0; MOST] };
        for (place, cell) in order.cells.iter_mut().zip(cells) {
            *place = cell;
        }
        order
    }

    pub fn n(&self) -> usize {
        usize::from(self.n)
    }

    pub fn cells(&self) -> &[u8] {
        &self.cells[..self.n()]
    }

    /// The place, from 1, where `cell` stands: its rank.
    pub fn rank(&self, cell: u8) -> Option<usize> {
        self.cells().iter().position(|&other| other == cell).map(|at| at + 1)
    }

    /// The order with ranks k and k + 1 exchanged.
    pub(crate) fn exchanged(mut self, k: usize) -> Order {
        self.cells[..usize::from(self.n)].swap(k - 1, k);
        self
    }

    pub fn coordinates(&self) -> Coordinates {
        self.sweep().0
    }

    /// The coordinates, and the sum over i of i times coordinate i.
    pub fn sweep(&self) -> (Coordinates, u32) {
        let mut values = [0; MOST];
        let mut sum = 0;
        // the cells met, coming from the last place
        let mut met = 0u32;
        for &cell in self.cells().iter().rev() {
            let lower = (met & (bit(cell) - 1)).count_ones();
            values[usize::from(cell) - 1] = lower as u8;
            sum += (u32::from(cell) - 1) * lower;
            met |= bit(cell);
        }
        (Coordinates { n: self.n, values }, sum)
    }

    /// The number of cell pairs that the two list oppositely.
    pub fn distance(&self, other: &Order) -> Result<u32, Refusal> {
        self.same_size(other)?;
        let mut cells = self.cells;
        let mut distance = 0;
        // drop the last cell of `other` from both; n - p cells stand after it in `self`
        for (after, &last) in other.cells().iter().enumerate().rev() {
            let at = cells.iter().position(|&cell| cell == last).expect("both list the same cells");
            distance += (after - at) as u32;
            cells.copy_within(at + 1.., at);
        }
        Ok(distance)
    }

    /// For each cell, by its number, its rank in `later` minus its rank here.
    pub fn displacements(&self, later: &Order) -> Result<Vec<i32>, Refusal> {
        self.same_size(later)?;
        let mut displacements = vec![0; self.n()];
        for (rank, (&here, &there)) in (1..).zip(self.cells().iter().zip(later.cells())) {
            displacements[usize::from(here) - 1] -= rank;
            displacements[usize::from(there) - 1] += rank;
        }
        Ok(displacements)
    }

    /// The largest displacement.
    pub fn cost(&self, later: &Order) -> Result<u32, Refusal> {
        // they add up to 0, so the largest is not negative
        Ok(self.displacements(later)?.into_iter().max().map_or(0, i32::unsigned_abs))
    }

    fn same_size(&self, other: &Order) -> Result<(), Refusal> {
        if self.n == other.n { Ok(()) } else { Err(Refusal::NoOrder) }
    }
}

impl Coordinates {
    /// Coordinates 1 to n - 1; n is one more than their number.
    pub fn new(values: &[u8]) -> Result<Coordinates, Refusal> {
        let n = size(values.len() + 1)?;
        let mut coordinates = Coordinates { n, values: [0; MOST] };
        for (i, &value) in (1..).zip(values) {
            if usize::from(value) > i {
                return Err(Refusal::Coordinate);
            }
            coordinates.values[i] = value;
        }
        Ok(coordinates)
    }

    pub fn n(&self) -> usize {
        usize::from(self.n)
    }

    /// Coordinates 1 to n - 1.
    pub fn values(&self) -> &[u8] {
        &self.values[1..self.n()]
    }

    pub(crate) fn values_mut(&mut self) -> &mut [u8] {
        &mut self.values[1..usize::from(self.n)]
    }

    /// All coordinates 0: the order 1 to n.
    pub(crate) fn zero(n: u8) -> Coordinates {
        Coordinates { n, values: [0; MOST] }
    }

    pub fn order(&self) -> Order {
        let mut cells = [0; MOST];
        cells[0] = 1;
        // cell i + 1 goes in so that coordinate i of the lower cells stand after it
        for (i, &value) in (1..).zip(self.values()) {
            let place = i - usize::from(value);
            cells.copy_within(place..i, place + 1);
            cells[place] = i as u8 + 1;
        }
        Order { n: self.n, cells }
    }
}

/// The bit of a cell in a set of cells.
fn bit(cell: u8) -> u32 {
    1 << (cell - 1)
}

#[cfg(test)]
mod tests {
    use super::*;

    fn order(cells: &[u8]) -> Order {
        Order::new(cells).unwrap()
    }

    #[test]
    fn cases_1_and_2_cost_and_displacements() {
        let target = order(&[2, 1, 4, 3]);
        assert_eq!(order(&[2, 1, 3, 4]).cost(&target), Ok(1));
        assert_eq!(order(&[1, 2, 3, 4]).displacements(&target), Ok(vec![1, -1, 1, -1]));
    }

    #[test]
    fn case_3_coordinates() {
        let read = order(&[3, 4, 1, 2]);
        assert_eq!(read.coordinates().values(), [0, 2, 2]);
        assert_eq!(read.coordinates().order(), read);
    }

    #[test]
    fn case_4_distance() {
        assert_eq!(order(&[2, 3, 1, 4]).distance(&order(&[3, 4, 1, 2])), Ok(4));
    }

    #[test]
    fn refusals() {
        assert_eq!(Order::new(&[1, 2]), Err(Refusal::Size));
        assert_eq!(Order::new(&[1; 13]), Err(Refusal::Size));
        assert_eq!(Order::new(&[1, 2, 2]), Err(Refusal::NoOrder));
        assert_eq!(Order::new(&[1, 2, 4]), Err(Refusal::NoOrder));
        assert_eq!(Order::new(&[0, 1, 2]), Err(Refusal::NoOrder));
        assert_eq!(order(&[1, 2, 3]).distance(&order(&[1, 2, 3, 4])), Err(Refusal::NoOrder));
        assert_eq!(Coordinates::new(&[]), Err(Refusal::Size));
        assert_eq!(Coordinates::new(&[1, 3]), Err(Refusal::Coordinate));
    }
}
