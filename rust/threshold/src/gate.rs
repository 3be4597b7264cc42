//! Gates.

use crate::claim::{over_claim, Claim};
use crate::record::{answered, Record};
use crate::{calls, Refusal, Table};
use std::{array, fmt, iter, ops, slice};

/// A gate for a table, from anyone: true on a row when the weights of the row's true inputs add up to at least the threshold.
///
/// It is shown as an inequality: `2 x1 + 3 x2 >= 4`. Weights of 0 are left out.
#[derive(Clone, PartialEq, Eq, Hash)]
pub struct Gate(pub(crate) Claim<(Weights, i32)>);

over_claim!(Gate, 2);

impl Gate {
    /// A gate that is proposed for a table: a weight for each input, and the threshold.
    ///
    /// ```
    /// use threshold::{Gate, Table};
    ///
    /// let majority: Table = "e8".parse()?;
    /// assert!(Gate::new(&majority, &[1, 1, 1], 2)?.realises());
    /// assert!(!Gate::new(&majority, &[1, 1, 1], 3)?.realises());
    /// # Ok::<(), threshold::Refusal>(())
    /// ```
    ///
    /// # Errors
    ///
    /// [`Refusal::Numbers`] if there is not a weight for each input, then [`Refusal::Gate`] if one or the threshold is beyond 1,000,000
    /// either way.
    pub fn new(table: &Table, weights: &[i32], threshold: i32) -> Result<Gate, Refusal> {
        if !table.is_partial() {
            return Record::written_by(|out| calls::from_gate(table.record(), weights, threshold, out))
                .map(|record| Gate(Claim::Record(record)));
        }
        calls::check_gate(table.record(), weights, threshold)?;
        let mut numbers = [0; 8];
        numbers[..weights.len()].copy_from_slice(weights);
        Ok(Gate(Claim::Numbers(table.0.clone(), (Weights { numbers, count: weights.len() }, threshold))))
    }

    /// The gate that the job of a record, of a table with a row not cared for, finds within the budget, and the corrections made.
    pub(crate) fn found(job: &Record, budget: u32) -> Result<(Gate, u32), Refusal> {
        let (mut numbers, mut threshold, mut made) = ([0; 8], 0, 0);
        let count = calls::find_gate(job.bytes(), budget, &mut numbers, &mut threshold, &mut made)?;
        Ok((Gate(Claim::Numbers(job.table().0, (Weights { numbers, count }, threshold))), made))
    }

    /// The weights of the inputs, from input 1 on.
    pub fn weights(&self) -> Weights {
        self.numbers().0
    }

    /// The threshold T.
    pub fn threshold(&self) -> i32 {
        self.numbers().1
    }

    /// The weights and the threshold.
    fn numbers(&self) -> (Weights, i32) {
        match &self.0 {
            Claim::Record(record) => {
                let (mut numbers, mut threshold) = ([0; 8], 0);
                let count = answered(calls::gate(record.bytes(), &mut numbers, &mut threshold));
                (Weights { numbers, count }, threshold)
            }
            Claim::Numbers(_, numbers) => *numbers,
        }
    }

    /// The gate's value on a row, cared for or not.
    ///
    /// # Errors
    ///
    /// [`Refusal::Row`] for a row at or above 2^n.
    pub fn value(&self, row: u32) -> Result<bool, Refusal> {
        match &self.0 {
            Claim::Record(record) => calls::value(record.bytes(), row),
            // A gate's value is not its table's: the record is of the same gate for a table with every row cared for.
            Claim::Numbers(table, (weights, threshold)) => {
                answered(Gate::new(&answered(Table::new(table.inputs(), table.table_bytes())), weights, *threshold)).value(row)
            }
        }
    }

    /// Whether the gate has the table's value on every row that is cared for.
    pub fn realises(&self) -> bool {
        answered(match &self.0 {
            Claim::Record(record) => calls::check(record.bytes()),
            Claim::Numbers(table, (weights, threshold)) => calls::check_gate(table.bytes(), weights, *threshold),
        })
    }
}

impl fmt::Display for Gate {
    fn fmt(&self, f: &mut fmt::Formatter) -> fmt::Result {
        let (weights, threshold) = self.numbers();
        let mut first = true;
        for (input, weight) in (1..).zip(weights).filter(|&(_, weight)| weight != 0) {
            f.write_str(match (first, weight < 0) {
                (true, false) => "",
                (true, true) => "-",
                (false, false) => " + ",
                (false, true) => " - ",
            })?;
            match weight.unsigned_abs() {
                1 => write!(f, "x{input}")?,
                size => write!(f, "{size} x{input}")?,
            }
            first = false;
        }
        write!(f, "{} >= {threshold}", if first { "0" } else { "" })
    }
}

/// The weights of a gate, a slice of a number for each input from input 1 on.
#[derive(Clone, Copy, PartialEq, Eq, Hash)]
pub struct Weights {
    /// Past the gate's inputs 0.
    numbers: [i32; 8],
    count: usize,
}

impl ops::Deref for Weights {
    type Target = [i32];

    fn deref(&self) -> &[i32] {
        &self.numbers[..self.count]
    }
}

impl fmt::Debug for Weights {
    fn fmt(&self, f: &mut fmt::Formatter) -> fmt::Result {
        (**self).fmt(f)
    }
}

impl PartialEq<[i32]> for Weights {
    fn eq(&self, numbers: &[i32]) -> bool {
        **self == *numbers
    }
}

impl<const N: usize> PartialEq<[i32; N]> for Weights {
    fn eq(&self, numbers: &[i32; N]) -> bool {
        **self == *numbers
    }
}

impl IntoIterator for Weights {
    type Item = i32;
    type IntoIter = iter::Take<array::IntoIter<i32, 8>>;

    fn into_iter(self) -> Self::IntoIter {
        self.numbers.into_iter().take(self.count)
    }
}

impl<'a> IntoIterator for &'a Weights {
    type Item = &'a i32;
    type IntoIter = slice::Iter<'a, i32>;

    fn into_iter(self) -> Self::IntoIter {
        self.iter()
    }
}
