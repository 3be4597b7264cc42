//! Witnesses.

use crate::claim::{over_claim, Claim};
use crate::record::{answered, Record};
use crate::{calls, Refusal, Table};
use std::{fmt, iter, ops};

/// A witness against a table, from anyone: a count for some of its rows. If it balances, the table has no gate.
///
/// It is shown as its true rows and its false rows, `3 12 = 5 10`, a row with a count above 1 as `2*3`; a row that is not cared for as a
/// false one.
#[derive(Clone, PartialEq, Eq, Hash)]
pub struct Witness(pub(crate) Claim<Box<[u32]>>);

over_claim!(Witness, 3);

impl Witness {
    /// A witness that is proposed against a table: pairs of a row and its count, in any order.
    ///
    /// ```
    /// use threshold::{Table, Witness};
    ///
    /// let pairs: Table = "f888".parse()?; // x1 x2 + x3 x4
    /// assert!(Witness::new(&pairs, &[(3, 1), (12, 1), (5, 1), (10, 1)])?.balances());
    /// # Ok::<(), threshold::Refusal>(())
    /// ```
    ///
    /// # Errors
    ///
    /// [`Refusal::RowList`] if there is no pair, a row is past the table or named twice, or a count is not within 1 to 1,000,000.
    pub fn new(table: &Table, rows: &[(u32, u32)]) -> Result<Witness, Refusal> {
        let mut all = [0; 256];
        let counts = &mut all[..1 << table.inputs()];
        for &(row, count) in rows {
            match counts.get_mut(row as usize) {
                Some(place) if *place == 0 && count > 0 => *place = count,
                _ => return Err(Refusal::RowList),
            }
        }
        if !table.is_partial() {
            return Record::written_by(|out| calls::from_witness(table.record(), counts, out)).map(|record| Witness(Claim::Record(record)));
        }
        calls::check_witness(table.record(), counts)?;
        Ok(Witness(Claim::Numbers(table.0.clone(), counts[..].into())))
    }

    /// The witness with which the job of a record, of a table with a row not cared for, ends within the budget, and the corrections made.
    pub(crate) fn found(job: &Record, budget: u32) -> Result<(Witness, u32), Refusal> {
        let (mut counts, mut made) = ([0; 256], 0);
        let rows = calls::find_witness(job.bytes(), budget, &mut counts, &mut made)?;
        Ok((Witness(Claim::Numbers(job.table().0, counts[..rows].into())), made))
    }

    /// The rows with a count, rising, each with its count.
    pub fn rows(&self) -> Rows {
        let mut counts = [0; 256];
        let rows = match &self.0 {
            Claim::Record(record) => answered(calls::witness(record.bytes(), &mut counts)),
            Claim::Numbers(_, numbers) => {
                counts[..numbers.len()].copy_from_slice(numbers);
                numbers.len()
            }
        };
        Rows { counts, left: 0..rows }
    }

    /// Whether true rows and false rows have the same total and, for each input, so have those in which it is true; and no row has a count
    /// that is not cared for.
    pub fn balances(&self) -> bool {
        answered(match &self.0 {
            Claim::Record(record) => calls::check(record.bytes()),
            Claim::Numbers(table, counts) => calls::check_witness(table.bytes(), counts),
        })
    }
}

impl fmt::Display for Witness {
    fn fmt(&self, f: &mut fmt::Formatter) -> fmt::Result {
        let side = |value| self.rows().filter(move |&(row, _)| self.0.with_table().table_value(row) == value).map(Term);
        side(true).try_for_each(|term| write!(f, "{term} "))?;
        f.write_str("=")?;
        side(false).try_for_each(|term| write!(f, " {term}"))
    }
}

/// A row and its count, as one side of a witness has it.
struct Term((u32, u32));

impl fmt::Display for Term {
    fn fmt(&self, f: &mut fmt::Formatter) -> fmt::Result {
        match self.0 {
            (row, 1) => write!(f, "{row}"),
            (row, count) => write!(f, "{count}*{row}"),
        }
    }
}

/// The rows of a witness that have a count, rising: pairs of a row and its count.
#[derive(Clone)]
pub struct Rows {
    /// By row.
    counts: [u32; 256],
    left: ops::Range<usize>,
}

impl Iterator for Rows {
    type Item = (u32, u32);

    fn next(&mut self) -> Option<(u32, u32)> {
        let row = self.left.find(|&row| self.counts[row] > 0)?;
        Some((row as u32, self.counts[row]))
    }

    fn size_hint(&self) -> (usize, Option<usize>) {
        (0, Some(self.left.len()))
    }
}

impl iter::FusedIterator for Rows {}

impl fmt::Debug for Rows {
    fn fmt(&self, f: &mut fmt::Formatter) -> fmt::Result {
        f.debug_list().entries(self.clone()).finish()
    }
}
