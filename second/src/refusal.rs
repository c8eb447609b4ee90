//! Refusals: their numbers and places.

/// What is wrong, with the number that the rules give it.
#[derive(Clone, Copy, Debug, PartialEq, Eq)]
pub enum Fault {
    Missing = 1,
    Tag = 2,
    Length = 3,
    Overrun = 4,
    LeftOver = 5,
    IntegerForm = 6,
    Value = 7,
    HeaderName = 8,
    Alphabet = 9,
    Time = 10,
    Identifier = 11,
    BitString = 12,
    Boolean = 13,
    Empty = 14,
    NoItem = 15,
    ManyItems = 16,
    RecordSize = 17,
    FindingTime = 18,
    Sheet = 19,
    Destination = 20,
}

/// A fault together with the place it is reported at.
#[derive(Clone, Copy, Debug, PartialEq, Eq)]
pub struct Refusal {
    pub fault: Fault,
    pub place: usize,
}

impl Fault {
    /// Makes the refusal that reports this fault at a place.
    pub fn at(self, place: usize) -> Refusal {
        Refusal { fault: self, place }
    }
}

impl Refusal {
    /// Gives the refusal's number.
    pub fn number(&self) -> u8 {
        self.fault as u8
    }
}
