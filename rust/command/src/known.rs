//! What is known of a table, and carrying that on.

use threshold::{Gate, SavedJob, Table, Verdict, Witness, CALL_BUDGET, CAP};

/// A verdict, and after how many corrections it came, if that is known: a gate or a witness that was read from a file does not say.
#[derive(Clone, Debug, PartialEq, Eq)]
pub struct Known {
    pub verdict: Verdict,
    pub corrections: Option<u32>,
}

impl Known {
    /// What is known after at most `budget` corrections.
    pub fn decided(table: &Table, budget: u32) -> Known {
        if budget < CALL_BUDGET {
            return Known { verdict: table.fresh(), corrections: Some(0) }.carried_on(budget);
        }
        let outcome = table.decide();
        Known { verdict: outcome.verdict, corrections: Some(outcome.made) }.carried_on(budget - CALL_BUDGET)
    }

    /// What a job says of itself.
    pub fn open(job: SavedJob) -> Known {
        Known { corrections: Some(job.corrections()), verdict: Verdict::Open(job) }
    }

    pub fn gate(gate: Gate) -> Known {
        Known { verdict: Verdict::Gate(gate), corrections: None }
    }

    pub fn witness(witness: Witness) -> Known {
        Known { verdict: Verdict::Witness(witness), corrections: None }
    }

    /// Carries an open job on by at most `budget` corrections, and not past the cap.
    pub fn carried_on(self, budget: u32) -> Known {
        let (mut known, mut left) = (self, budget);
        while let Verdict::Open(job) = &known.verdict {
            let step = left.min(CALL_BUDGET).min(CAP - job.corrections());
            if step == 0 {
                break;
            }
            let outcome = job.carry_on(step).expect("the budget is within the limits");
            left -= step;
            known = Known { verdict: outcome.verdict, corrections: Some(job.corrections() + outcome.made) };
        }
        known
    }

    pub fn table(&self) -> Table {
        match &self.verdict {
            Verdict::Gate(gate) => gate.table(),
            Verdict::Witness(witness) => witness.table(),
            Verdict::Open(job) => job.table(),
        }
    }

    /// The record, to be saved. No record carries a gate or a witness for a table with a row that is not cared for.
    pub fn record(&self) -> Option<&[u8]> {
        match &self.verdict {
            Verdict::Gate(gate) => gate.record().ok(),
            Verdict::Witness(witness) => witness.record().ok(),
            Verdict::Open(job) => Some(job.record()),
        }
    }
}

#[cfg(test)]
pub mod tests {
    use super::*;

    /// A table that is open after 100,000 corrections and has a witness after 131,076.
    pub const SLOW: &str = "fffffaaae8a8a0a0eaeaa8a0a0a08000a8a0808080800000a0a0000000000000";

    pub fn slow() -> Table {
        SLOW.parse().unwrap()
    }

    #[test]
    fn budgets_add_up() {
        let whole = Known::decided(&slow(), CAP);
        assert_eq!(whole.corrections, Some(131_076));
        for first in [1, 99_999, 100_000, 100_001, 131_075] {
            let part = Known::decided(&slow(), first);
            assert_eq!(part.corrections, Some(first));
            assert!(matches!(part.verdict, Verdict::Open(_)));
            assert_eq!(part.carried_on(131_076 - first), whole);
        }
    }

    #[test]
    fn a_verdict_on_rows_cared_for_has_no_record() {
        for (text, budget, kind) in [("e8", 100, Some(2)), ("f888", 100, Some(3)), ("e8", 1, Some(4)), ("e0@f7", 1, Some(6))] {
            assert_eq!(Known::decided(&text.parse().unwrap(), budget).record().map(|record| record[0]), kind, "{text}");
        }
        for text in ["6@7", "06@0f", "0@0"] {
            let known = Known::decided(&text.parse().unwrap(), CALL_BUDGET);
            assert_eq!((known.record(), known.table().to_string()), (None, text.to_string()));
        }
    }

    #[test]
    fn a_small_budget_gives_what_a_large_one_does() {
        let table: Table = "e8".parse().unwrap();
        let known = Known::decided(&table, CALL_BUDGET);
        assert_eq!(Known::decided(&table, known.corrections.unwrap()), known);
        assert!(matches!(Known::decided(&table, known.corrections.unwrap() - 1).verdict, Verdict::Open(_)));
    }
}
