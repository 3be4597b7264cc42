//! Refusals by their numbers.

use std::error::Error;
use std::fmt;

/// Why a call was refused, by the numbers of `include/threshold.h`: 1 to 16 are those of records and calls (docs/FORMAT.md), those from 100
/// on are the interface's own.
#[derive(Clone, Copy, Debug, PartialEq, Eq, Hash)]
#[repr(u8)]
#[non_exhaustive]
pub enum Refusal {
    /// The bytes end early.
    EndsEarly = 1,
    /// There are more than eight inputs.
    Inputs = 2,
    /// A spare bit of the table is set.
    SpareBit = 3,
    /// A number is not in shortest form, or has over three groups.
    Number = 4,
    /// The kind byte is not 1 to 6.
    Kind = 5,
    /// Bytes are left after the record.
    BytesLeft = 6,
    /// A weight or the threshold is beyond 1,000,000 either way.
    Gate = 7,
    /// The row list is empty, too long or not rising, or has a row past the table or a count outside 1 to 1,000,000. Counts by row may
    /// be 0, but not all of them.
    RowList = 8,
    /// The job is not sound.
    Unsound = 9,
    /// The budget is 0 or above [`CALL_BUDGET`](crate::CALL_BUDGET).
    Budget = 10,
    /// The job's corrections with the budget are above [`CAP`](crate::CAP).
    Cap = 11,
    /// The answer is longer than the room.
    Room = 12,
    /// The row is at or above 2^n.
    Row = 14,
    /// A row that is not cared for has a value bit, every row of a kind 5 or 6 is cared for, or a kind 2 or 3 is asked for with a row not
    /// cared for.
    Care = 16,
    /// The record is whole and right, of a kind that the call does not take.
    OtherKind = 100,
    /// There are not as many hex digits as a table of n inputs has.
    Digits = 101,
    /// A character is not a hex digit.
    Digit = 102,
    /// There are fewer words than a table of n inputs has.
    Words = 103,
    /// There is not a weight for each input of the table, or not a count for each of its rows. (In C++ it is also for a care bit.)
    Numbers = 104,
    /// The job has not come to the gate, or to the witness, that is asked for.
    NotFound = 105,
}

impl Refusal {
    const ALL: [Refusal; 20] = {
        use Refusal::*;
        [
            EndsEarly, Inputs, SpareBit, Number, Kind, BytesLeft, Gate, RowList, Unsound, Budget, Cap, Room, Row, Care, OtherKind, Digits,
            Digit, Words, Numbers, NotFound,
        ]
    };

    /// The number of the refusal.
    pub fn number(self) -> u8 {
        self as u8
    }

    /// The refusal with this number, if a call can give it.
    pub fn from_number(number: u8) -> Option<Refusal> {
        Refusal::ALL.into_iter().find(|refusal| refusal.number() == number)
    }

    /// The refusal in words, as `threshold_refusal_text` has it.
    pub fn text(self) -> &'static str {
        match self {
            Refusal::EndsEarly => "the bytes end early",
            Refusal::Inputs => "more than eight inputs",
            Refusal::SpareBit => "a spare bit of the table is set",
            Refusal::Number => "a number is not in shortest form, or has over three groups",
            Refusal::Kind => "the kind byte is not 1 to 6",
            Refusal::BytesLeft => "bytes are left after the record",
            Refusal::Gate => "a weight or the threshold is beyond 1,000,000 either way",
            Refusal::RowList => "the counts are all 0, or one is above 1,000,000, or the row list breaks its rules",
            Refusal::Unsound => "the job is not sound",
            Refusal::Budget => "the budget is not within 1 to 100,000",
            Refusal::Cap => "the budget passes the cap of 1,000,000 corrections",
            Refusal::Room => "the answer is longer than the room",
            Refusal::Row => "the row is past the table",
            Refusal::Care => {
                "a row that is not cared for has a value bit, every row of a kind 5 or 6 is cared for, \
                 or a kind 2 or 3 is asked for with a row not cared for"
            }
            Refusal::OtherKind => "a kind of record that the call does not take",
            Refusal::Digits => "not as many hex digits as the table has",
            Refusal::Digit => "a character is not a hex digit",
            Refusal::Words => "fewer words than the table has",
            Refusal::Numbers => "not a weight for each input, or not a count or a care bit for each row",
            Refusal::NotFound => "the job has not come to what is asked for",
        }
    }
}

impl fmt::Display for Refusal {
    fn fmt(&self, f: &mut fmt::Formatter) -> fmt::Result {
        write!(f, "refused by {}: {}", self.number(), self.text())
    }
}

impl Error for Refusal {}
