//! "The stepping machine": jobs, one step, carry-on, and when a job is sound; with the meanings of document 02, §3.

use crate::gate::{sum_of_true, Gate};
use crate::record::Record;
use crate::refusal::{demand, Refusal};
use crate::table::{is_true, partner, Table};
use crate::witness::Witness;

#[derive(Clone, Copy, Debug, PartialEq, Eq)]
pub enum Stage {
    Open,
    Found,
    Looped,
    Binate,
}

/// v and s: the numbers a1 to an, and b.
#[derive(Clone, Debug, PartialEq, Eq)]
pub struct Vector {
    pub a: Vec<i64>,
    pub b: i64,
}

/// The whole state: the table, K, v, the mark M with its copy s of v, a count for each row, the stage.
#[derive(Clone, Debug, PartialEq, Eq)]
pub struct Job {
    pub table: Table,
    pub k: i64,
    pub v: Vector,
    pub mark: i64,
    pub s: Vector,
    pub counts: Vec<i64>,
    pub stage: Stage,
}

impl Vector {
    pub fn zero(n: usize) -> Vector {
        Vector { a: vec![0; n], b: 0 }
    }

    /// Makes the row's correction, `times` over: on a true row 1 to the ai of its true inputs and -1 to b, on a false row the reverse.
    fn correct(&mut self, table: &Table, row: usize, times: i64) {
        let change = if table.values[row] { times } else { -times };
        for input in (1..=table.n).filter(|&input| is_true(row, input)) {
            self.a[input - 1] += change;
        }
        self.b -= change;
    }

    fn within(&self, limit: i64) -> bool {
        self.a.iter().chain([&self.b]).all(|component| component.abs() <= limit)
    }
}

/// The highest power of two not above k, and 0 for k 0.
fn highest_power(k: i64) -> i64 {
    (0..).map(|exponent| 1 << exponent).take_while(|&power| power <= k).last().unwrap_or(0)
}

impl Job {
    /// The most corrections that a job makes.
    pub const CAP: i64 = 1_000_000;
    /// The most corrections of one carry-on.
    pub const CALL_BUDGET: i64 = 100_000;

    /// The fresh job: all numbers 0, or a binate table's four counts. Without a failing row it is found.
    pub fn fresh(table: Table) -> Job {
        let zero = Vector::zero(table.n);
        let mut job = Job { k: 0, v: zero.clone(), mark: 0, s: zero, counts: vec![0; table.values.len()], stage: Stage::Open, table };
        if let Some(input) = job.table.lowest_binate() {
            for row in [job.table.lowest_rise(input), job.table.lowest_fall(input)].into_iter().flatten() {
                job.counts[row] = 1;
                job.counts[partner(row, input)] = 1;
            }
            job.stage = Stage::Binate;
        } else if job.lowest_failing().is_none() {
            job.stage = Stage::Found;
        }
        job
    }

    /// The fresh job, carried on by 100,000.
    pub fn decided(table: Table) -> Job {
        let mut job = Job::fresh(table);
        job.carry_on(Job::CALL_BUDGET as u32).expect("a fresh job is sound");
        job
    }

    /// Whether the row fails: its distance is below 1 on a true row, above -1 on a false row. One that is not cared for never fails.
    pub fn fails(&self, row: usize) -> bool {
        let distance = sum_of_true(&self.v.a, row) - self.v.b;
        match (self.table.cares[row], self.table.values[row]) {
            (false, _) => false,
            (true, true) => distance < 1,
            (true, false) => distance > -1,
        }
    }

    fn lowest_failing(&self) -> Option<usize> {
        self.table.rows().find(|&row| self.fails(row))
    }

    /// One step of an open job, numbered as in the document.
    fn step(&mut self) {
        // 1
        let row = self.lowest_failing().expect("a row fails in an open job");
        self.v.correct(&self.table, row, 1);
        // 2
        self.k += 1;
        self.counts[row] += 1;
        // 3
        if self.v == self.s {
            self.stage = Stage::Looped;
            return;
        }
        // 4
        if highest_power(self.k) == self.k {
            self.mark = self.k;
            self.s = self.v.clone();
            self.counts.fill(0);
        }
        // 5
        if self.lowest_failing().is_none() {
            self.stage = Stage::Found;
        }
    }

    /// Carries the job on by the budget, and gives the corrections made. The order is 9, 10, the ended answer, 11.
    pub fn carry_on(&mut self, budget: u32) -> Result<i64, Refusal> {
        let budget = i64::from(budget);
        demand(self.is_sound(), Refusal::Unsound)?;
        demand((1..=Job::CALL_BUDGET).contains(&budget), Refusal::Budget)?;
        if self.stage != Stage::Open {
            return Ok(0);
        }
        demand(self.k + budget <= Job::CAP, Refusal::Cap)?;
        let before = self.k;
        while self.stage == Stage::Open && self.k < before + budget {
            self.step();
        }
        Ok(self.k - before)
    }

    /// The gate of a job that has found one.
    pub fn gate(&self) -> Option<Gate> {
        (self.stage == Stage::Found).then(|| Gate { weights: self.v.a.clone(), threshold: self.v.b })
    }

    /// The witness of a job that has ended with one.
    pub fn witness(&self) -> Option<Witness> {
        matches!(self.stage, Stage::Looped | Stage::Binate).then(|| Witness { counts: self.counts.clone() })
    }

    /// What the job shows: its gate, its witness, or itself while it is open.
    pub fn shown(&self) -> Record {
        let table = self.table.clone();
        match (self.gate(), self.witness()) {
            (Some(gate), _) => Record::Gate(table, gate),
            (_, Some(witness)) => Record::Witness(table, witness),
            _ => Record::Job(self.clone()),
        }
    }

    /// The mark that goes with K in the job's stage, if there is one.
    fn mark_for_k(&self) -> Option<i64> {
        match self.stage {
            Stage::Looped if self.k < 2 => None,
            Stage::Looped => Some(highest_power(self.k - 1)),
            _ => Some(highest_power(self.k)),
        }
    }

    /// s plus each row's correction times its count.
    pub fn traced(&self) -> Vector {
        let mut v = self.s.clone();
        for row in self.table.rows() {
            v.correct(&self.table, row, self.counts[row]);
        }
        v
    }

    /// "A sound job has:" each of the document's lines, and no count on a row that is not cared for.
    pub fn is_sound(&self) -> bool {
        if self.stage == Stage::Binate {
            return *self == Job::fresh(self.table.clone());
        }
        let ranges = self.k <= Job::CAP && self.v.within(self.k) && self.s.within(self.k);
        let marked = self.mark_for_k() == Some(self.mark);
        let counted = self.counts.iter().sum::<i64>() == self.k - self.mark && self.v == self.traced();
        let staged = match self.stage {
            Stage::Open => self.lowest_failing().is_some() && (self.v != self.s || self.counts.iter().all(|&count| count == 0)),
            Stage::Found => self.lowest_failing().is_none(),
            _ => self.v == self.s,
        };
        let cared_for = self.table.rows().all(|row| self.table.cares[row] || self.counts[row] == 0);
        ranges && marked && counted && cared_for && staged && self.table.lowest_binate().is_none()
    }

    /// An open job with these numbers, which need not be sound. A record holds no mark: it is the one that goes with K.
    pub fn open(table: Table, k: i64, v: Vector, s: Vector, counts: Vec<i64>) -> Job {
        Job { mark: highest_power(k), table, k, v, s, counts, stage: Stage::Open }
    }
}
