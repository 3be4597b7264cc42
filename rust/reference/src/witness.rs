//! "Table, gate, witness": the witness.

use crate::table::{is_true, Table};

/// The largest count of a row.
pub const LIMIT: i64 = 1_000_000;

/// A count for each row of a table.
#[derive(Clone, Debug, PartialEq, Eq)]
pub struct Witness {
    pub counts: Vec<i64>,
}

impl Witness {
    /// Whether true rows and false rows have the same total above 0 and, for each input, so have those in which it is true. A witness with
    /// a count on a row that is not cared for does not balance.
    pub fn balances(&self, table: &Table) -> bool {
        let total = |value: bool, chosen: &dyn Fn(usize) -> bool| -> i64 {
            table.rows().filter(|&row| table.values[row] == value && chosen(row)).map(|row| self.counts[row]).sum()
        };
        let equal = |chosen: &dyn Fn(usize) -> bool| total(true, chosen) == total(false, chosen);
        let cared_for = table.rows().all(|row| table.cares[row] || self.counts[row] == 0);
        cared_for && total(true, &|_| true) > 0 && equal(&|_| true) && (1..=table.n).all(|input| equal(&|row| is_true(row, input)))
    }
}
