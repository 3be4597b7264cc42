//! "Who causes which number": the refusals that calls on records can give.

/// A refusal, by the number of document 01 or 02; those from 100 on are the C interface's own.
#[derive(Clone, Copy, Debug, PartialEq, Eq)]
pub enum Refusal {
    EndsEarly = 1,
    InputsAboveEight = 2,
    SpareBit = 3,
    NotShortest = 4,
    UnknownKind = 5,
    BytesLeft = 6,
    GateRange = 7,
    RowList = 8,
    Unsound = 9,
    Budget = 10,
    Cap = 11,
    BufferTooShort = 12,
    RowPastTable = 14,
    Care = 16,
    OtherKind = 100,
    DigitCount = 101,
    NotADigit = 102,
    TooFewWords = 103,
    NumberCount = 104,
    NotFound = 105,
}

/// Refuses unless the rule is kept.
pub fn demand(kept: bool, otherwise: Refusal) -> Result<(), Refusal> {
    if kept {
        Ok(())
    } else {
        Err(otherwise)
    }
}
