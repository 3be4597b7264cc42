//! "Table, gate, witness": the gate rule.

use crate::table::{is_true, Table};

/// Weights and T lie within this of 0.
pub const LIMIT: i64 = 1_000_000;

/// A gate: a weight for each input, and T.
#[derive(Clone, Debug, PartialEq, Eq)]
pub struct Gate {
    pub weights: Vec<i64>,
    pub threshold: i64,
}

/// The sum of the numbers that belong to the row's true inputs.
pub fn sum_of_true(numbers: &[i64], row: usize) -> i64 {
    (1..=numbers.len()).filter(|&input| is_true(row, input)).map(|input| numbers[input - 1]).sum()
}

impl Gate {
    /// True when the weights of the true inputs add up to at least T.
    pub fn value(&self, row: usize) -> bool {
        sum_of_true(&self.weights, row) >= self.threshold
    }

    /// Whether the gate agrees with the table on every row cared for.
    pub fn realises(&self, table: &Table) -> bool {
        table.cared_rows().all(|row| self.value(row) == table.values[row])
    }
}
