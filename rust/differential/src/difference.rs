//! What the comparison ends with where library and reference disagree.

use crate::call::Call;
use crate::lent::{Lent, Outcome};
use std::error::Error;
use std::fmt;

/// The description of a call, of a report, or of a line of the page of heights, that is not as it must be.
#[derive(Debug)]
pub struct Difference(String);

impl Difference {
    pub fn of_calls(call: Call, record: &[u8], lent: &Lent, library: &Outcome, reference: &Outcome) -> Difference {
        Difference(format!(
            "difference in {call:?}\n  record {}\n  lent {}\n  library {}\n  reference {}",
            hex(record),
            described(lent),
            outcome(library),
            outcome(reference)
        ))
    }

    /// The description of a call that has changed what it only reads.
    pub fn of_read(call: Call, record: &[u8]) -> Difference {
        Difference(format!("changed by a call that only reads it\n  record {}\n  call, after it, {call:?}", hex(record)))
    }

    /// The description of a call that has not written the record that it must.
    pub fn of_record(call: Call, record: &[u8], found: Option<&[u8]>) -> Difference {
        Difference(format!("another record by {call:?}\n  awaited {}\n  found {:?}", hex(record), found.map(hex)))
    }

    /// The description of a report, stored or written by the program, that is not the reference's: the first line in which they differ.
    pub fn of_reports(input: &[u8], found: &str, reference: &str) -> Difference {
        let found: Vec<&str> = found.split_inclusive('\n').collect();
        let reference: Vec<&str> = reference.split_inclusive('\n').collect();
        let at = found.iter().zip(&reference).take_while(|(one, other)| one == other).count();
        Difference(format!(
            "difference in a report\n  input {}\n  line {}: found {:?}, the reference has {:?}",
            hex(input),
            at + 1,
            found.get(at),
            reference.get(at)
        ))
    }

    /// The description of a line of the page of heights that has not the reference's numbers.
    pub fn of_heights(found: &str, reference: &[usize]) -> Difference {
        Difference(format!("difference in the page of heights\n  found {found}\n  the reference has {reference:?}"))
    }
}

fn hex(bytes: &[u8]) -> String {
    bytes.iter().map(|byte| format!("{byte:02x}")).collect()
}

fn described(lent: &Lent) -> String {
    let Lent { out, made, weights, threshold, counts } = lent;
    format!("bytes {}, made {made}, weights {weights:?}, T {threshold}, counts {counts:?}", hex(out))
}

fn outcome(outcome: &Outcome) -> String {
    format!("says {:?} and leaves {}", outcome.said, described(&outcome.lent))
}

impl fmt::Display for Difference {
    fn fmt(&self, f: &mut fmt::Formatter) -> fmt::Result {
        f.write_str(&self.0)
    }
}

impl Error for Difference {}
