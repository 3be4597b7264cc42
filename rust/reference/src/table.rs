//! "Table, gate, witness": the table, with the rows cared for of document 02, §3, and the kinds and Chow's parameters of its inputs.

use crate::refusal::{demand, Refusal};

/// A table of n inputs, 0 to 8: the value of each of the 2^n rows, and whether it is cared for. One that is not has value false.
#[derive(Clone, Debug, PartialEq, Eq, Hash)]
pub struct Table {
    pub n: usize,
    pub values: Vec<bool>,
    pub cares: Vec<bool>,
}

/// What making an input true does to the table's value.
#[derive(Clone, Copy, Debug, PartialEq, Eq)]
pub enum Kind {
    Idle = 0,
    Rising = 1,
    Falling = 2,
    Binate = 3,
}

/// Whether input i, counted from 1, is true in the row: bit i - 1 of the row's number.
pub fn is_true(row: usize, input: usize) -> bool {
    (row >> (input - 1)) & 1 == 1
}

/// How many of n inputs are true in the row (document 02, §2: the height of the row).
pub fn true_inputs(row: usize, n: usize) -> usize {
    (1..=n).filter(|&input| is_true(row, input)).count()
}

/// The row that differs from this one in having the input true.
pub fn partner(row: usize, input: usize) -> usize {
    row | 1 << (input - 1)
}

impl Table {
    /// The table of these values, with every row cared for.
    pub fn full(n: usize, values: Vec<bool>) -> Table {
        Table { n, cares: vec![true; values.len()], values }
    }

    /// The table of these values and cares, if no row that is not cared for has a value bit.
    pub fn with_cares(n: usize, values: Vec<bool>, cares: Vec<bool>) -> Result<Table, Refusal> {
        demand(values.iter().zip(&cares).all(|(&value, &cared)| cared || !value), Refusal::Care)?;
        Ok(Table { n, values, cares })
    }

    /// Whether every row is cared for.
    pub fn is_full(&self) -> bool {
        self.cares.iter().all(|&cared| cared)
    }

    /// The numbers of the rows.
    pub fn rows(&self) -> std::ops::Range<usize> {
        0..1 << self.n
    }

    /// The numbers of the rows cared for.
    pub fn cared_rows(&self) -> impl Iterator<Item = usize> + '_ {
        self.rows().filter(|&row| self.cares[row])
    }

    /// The lowest row without the input whose value is `before`, and `after` with the input made true; both rows are cared for.
    fn lowest_turn(&self, input: usize, before: bool, after: bool) -> Option<usize> {
        let turns = |row: usize| self.values[row] == before && self.values[partner(row, input)] == after;
        self.cared_rows().find(|&row| !is_true(row, input) && self.cares[partner(row, input)] && turns(row))
    }

    /// The lowest row without the input where making it true turns the table from false to true.
    pub fn lowest_rise(&self, input: usize) -> Option<usize> {
        self.lowest_turn(input, false, true)
    }

    /// The lowest row without the input where making it true turns the table from true to false.
    pub fn lowest_fall(&self, input: usize) -> Option<usize> {
        self.lowest_turn(input, true, false)
    }

    pub fn kind(&self, input: usize) -> Kind {
        match (self.lowest_rise(input), self.lowest_fall(input)) {
            (None, None) => Kind::Idle,
            (Some(_), None) => Kind::Rising,
            (None, Some(_)) => Kind::Falling,
            (Some(_), Some(_)) => Kind::Binate,
        }
    }

    /// The lowest binate input.
    pub fn lowest_binate(&self) -> Option<usize> {
        (1..=self.n).find(|&input| self.kind(input) == Kind::Binate)
    }

    /// q = 2p - p0: p counts the true rows in which the input is true, p0 all true rows.
    pub fn chow(&self, input: usize) -> i64 {
        let p0 = self.rows().filter(|&row| self.values[row]).count() as i64;
        let p = self.rows().filter(|&row| self.values[row] && is_true(row, input)).count() as i64;
        2 * p - p0
    }
}
