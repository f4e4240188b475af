//! The refusal table. Number 0, done, is `Ok`.

#[derive(Clone, Copy, Debug, PartialEq, Eq)]
#[repr(u8)]
pub enum Refusal {
    Size = 1,
    NoGroup = 2,
    NoCell = 3,
    NoOrder = 4,
    NoSymbol = 5,
    Blank = 6,
    Lost = 7,
    Worn = 8,
    CapUp = 9,
    ListShort = 10,
    Coordinate = 11,
    BadRecord = 12,
    RunLimit = 13,
    NoRaise = 14,
    RoomShort = 15,
    Spent = 19,
    Endurance = 20,
    Seed = 21,
}

impl Refusal {
    pub fn number(self) -> u8 {
        self as u8
    }
}
