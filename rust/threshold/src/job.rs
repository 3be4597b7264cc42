//! Verdicts with the corrections made, and the job of a table that is still open.

use crate::claim::Claim;
use crate::record::{answered, over_record, Record};
use crate::{calls, Gate, Refusal, Table, Witness};
use std::fmt;

/// What is known of a table.
///
/// It is shown as `gate 2 x1 + 3 x2 >= 4`, `no gate 3 12 = 6 9` or `open at K 100000`.
#[derive(Clone, Debug, PartialEq, Eq, Hash)]
pub enum Verdict {
    /// One gate carries the table: it agrees on every row that is cared for.
    Gate(Gate),
    /// No gate of any weights does: the witness balances.
    Witness(Witness),
    /// Given up so far: the job can be carried on.
    Open(SavedJob),
}

/// What a call that makes corrections gives.
#[derive(Clone, Debug, PartialEq, Eq, Hash)]
pub struct Outcome {
    /// What is known of the table after the call.
    pub verdict: Verdict,
    /// The corrections made in this call.
    pub made: u32,
}

/// The open job of a table, as it is stored between calls.
///
/// It is shown by the corrections made so far: `open at K 100000`.
#[derive(Clone, PartialEq, Eq, Hash)]
pub struct SavedJob(Record);

over_record!(SavedJob, 4, 6);

impl SavedJob {
    /// The fresh job of a table, if it is open: no input is binate, and some row is cared for. [`Table::fresh`] gives the verdict too.
    pub fn fresh(table: &Table) -> Option<SavedJob> {
        match table.fresh() {
            Verdict::Open(job) => Some(job),
            _ => None,
        }
    }

    /// Carries the job on by at most `budget` corrections. The job itself stays as it is, so a refused call loses nothing.
    ///
    /// # Errors
    ///
    /// [`Refusal::Budget`] for a budget of 0 or above [`CALL_BUDGET`](crate::CALL_BUDGET), then [`Refusal::Cap`] if the job could pass
    /// [`CAP`](crate::CAP) corrections with it.
    pub fn carry_on(&self, budget: u32) -> Result<Outcome, Refusal> {
        Outcome::of(&self.0, budget, |out, made| calls::carry_on(self.record(), budget, out, made))
    }

    /// The table that this is about.
    pub fn table(&self) -> Table {
        self.0.table()
    }

    /// The corrections made so far, K.
    pub fn corrections(&self) -> u32 {
        answered(calls::corrections(self.record()))
    }
}

impl Outcome {
    /// What the call writes and makes; or, where no record carries what the job has come to, what the job of the record finds within the
    /// budget of the call.
    pub(crate) fn of(
        job: &Record,
        budget: u32,
        call: impl FnOnce(&mut [u8], &mut u32) -> Result<usize, Refusal>,
    ) -> Result<Outcome, Refusal> {
        let mut made = 0;
        match Record::written_by(|out| call(out, &mut made)) {
            Ok(record) => Ok(Outcome { verdict: Verdict::of(record), made }),
            Err(Refusal::Care) => Ok(Outcome::found(job, budget)),
            Err(refusal) => Err(refusal),
        }
    }

    /// The gate or the witness with which the job of a record ends within the budget.
    fn found(job: &Record, budget: u32) -> Outcome {
        match Gate::found(job, budget) {
            Err(Refusal::NotFound) => {
                let (witness, made) = answered(Witness::found(job, budget));
                Outcome { verdict: Verdict::Witness(witness), made }
            }
            gate => {
                let (gate, made) = answered(gate);
                Outcome { verdict: Verdict::Gate(gate), made }
            }
        }
    }
}

impl Verdict {
    /// The verdict that the library has written: kind 2, 3, 4 or 6.
    fn of(record: Record) -> Verdict {
        match record.kind() {
            2 => Verdict::Gate(Gate(Claim::Record(record))),
            3 => Verdict::Witness(Witness(Claim::Record(record))),
            _ => Verdict::Open(SavedJob(record)),
        }
    }
}

impl fmt::Display for Verdict {
    fn fmt(&self, f: &mut fmt::Formatter) -> fmt::Result {
        match self {
            Verdict::Gate(gate) => write!(f, "gate {gate}"),
            Verdict::Witness(witness) => write!(f, "no gate {witness}"),
            Verdict::Open(job) => write!(f, "{job}"),
        }
    }
}

impl fmt::Display for SavedJob {
    fn fmt(&self, f: &mut fmt::Formatter) -> fmt::Result {
        write!(f, "open at K {}", self.corrections())
    }
}

impl fmt::Debug for SavedJob {
    fn fmt(&self, f: &mut fmt::Formatter) -> fmt::Result {
        write!(f, "SavedJob({}: {self})", self.table().described())
    }
}
