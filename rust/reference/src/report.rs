//! "Kinds, Chow, report": the report of an input, with the mean of document 02, §1, and the heights of its §2.

use crate::job::{Job, Stage};
use crate::record::Record;
use crate::table::{true_inputs, Table};
use std::collections::HashMap;

/// The most bytes of an input.
pub const LONGEST: usize = 65_536;

/// What the last line counts: records read whole, lines with G, N and S, and the K of those with G added up.
#[derive(Default)]
struct Totals {
    read: u64,
    fitting: u64,
    refuted: u64,
    open: u64,
    k: u64,
}

impl Totals {
    fn add(&mut self, job: &Job) {
        self.read += 1;
        match job.stage {
            Stage::Open => self.open += 1,
            Stage::Found => {
                self.fitting += 1;
                self.k += job.k as u64;
            }
            Stage::Looped | Stage::Binate => self.refuted += 1,
        }
    }

    fn line(&self) -> String {
        format!("{} {} {} {} {}\n", self.read, self.fitting, self.refuted, self.open, mean(self.k, self.fitting))
    }
}

/// The mean of numbers with this sum, to a tenth: the nearest and, of two that are as near, the even one; "-" if there are none.
pub fn mean(sum: u64, count: u64) -> String {
    if count == 0 {
        return "-".to_string();
    }
    let distance = |tenths: u64| (tenths * count).abs_diff(10 * sum);
    let around = 10 * sum / count;
    let nearest = (around..=around + 1).min_by_key(|&tenths| (distance(tenths), tenths % 2)).expect("one of two");
    format!("{}.{}", nearest / 10, nearest % 10)
}

/// The sum of count times true inputs over the true rows.
fn height(table: &Table, counts: &[i64]) -> i64 {
    table.rows().filter(|&row| table.values[row]).map(|row| counts[row] * true_inputs(row, table.n) as i64).sum()
}

/// The line of a job from its letter on.
fn verdict(job: &Job) -> String {
    let Job { table, k, v, counts, .. } = job;
    match job.stage {
        Stage::Open => format!("S {k}"),
        Stage::Found => {
            let size = v.a.iter().sum::<i64>() + v.b;
            let numbers: String = v.a.iter().chain([&v.b]).map(|number| format!(" {number}")).collect();
            format!("G {k} {size}{numbers}")
        }
        Stage::Looped | Stage::Binate => {
            let pairs = counts.iter().enumerate().filter(|(_, &count)| count > 0);
            let pairs: String = pairs.map(|(row, count)| format!(" {row}:{count}")).collect();
            format!("N {k} {}{pairs}", height(table, counts))
        }
    }
}

/// The report of an input. A table that comes again is decided once.
pub fn report(input: &[u8]) -> String {
    if input.len() > LONGEST {
        return "R 15\n".to_string();
    }
    let (mut totals, mut lines, mut rest) = (Totals::default(), String::new(), input);
    let mut jobs: HashMap<Table, Job> = HashMap::new();
    while !rest.is_empty() {
        let position = totals.read + 1;
        match Record::first_table(rest) {
            Ok((table, after)) => {
                let job = jobs.entry(table).or_insert_with_key(|table| Job::decided(table.clone()));
                lines += &format!("{position} {} {}\n", job.table.n, verdict(job));
                totals.add(job);
                rest = after;
            }
            Err(refusal) => {
                lines += &format!("{position} R {}\n", refusal as u8);
                break;
            }
        }
    }
    lines + &totals.line()
}
