//! What judge, step and run hand back.

/// Number, place, events (steps that gave 0) and records (those written).
#[derive(Clone, Copy, Debug, PartialEq, Eq)]
pub struct Answer {
    pub number: u8,
    pub place: u64,
    pub events: u64,
    pub records: u64,
}

impl Answer {
    /// An answer without events and records.
    pub fn bare(number: u8, place: u64) -> Answer {
        Answer {
            number,
            place,
            events: 0,
            records: 0,
        }
    }
}

/// Why reading, or a step, goes no further: a number and its place.
#[derive(Clone, Copy, Debug, PartialEq, Eq)]
pub struct Refusal {
    pub number: u8,
    pub place: u64,
}

impl Refusal {
    pub fn new(number: u8, place: u64) -> Refusal {
        Refusal { number, place }
    }
}
