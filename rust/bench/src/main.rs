//! Times the wrapper, one core: microseconds for a table by n, and the cost of many small budgets. Each result is checked.

use differential::random::Random;
use differential::tables::{partial_table, table, Family};
use std::time::Instant;
use threshold::{SavedJob, Table, Verdict};

/// Rounds of each measurement; the best is printed.
const ROUNDS: usize = 5;

fn main() {
    println!("microseconds for a table, best of {ROUNDS}");
    println!("   n  threshold      unate     random  threshold with rows not cared for");
    for n in 1..=8 {
        let times = [Family::Threshold, Family::Unate, Family::Random].map(|family| time_of_deciding(family, n));
        println!("{n:4} {:10.2} {:10.2} {:10.2} {:10.2}", times[0], times[1], times[2], time_of_partial(n));
    }
    println!("microseconds for a gate of eight inputs by the budget of each call, its job saved and read between");
    println!("budget       time");
    for budget in [1, 10, 100, 1_000, 100_000] {
        println!("{budget:6} {:10.2}", time_of_budgets(budget));
    }
}

fn tables(family: Family, n: usize, number: usize) -> Vec<Table> {
    let mut random = Random(n as u64);
    (0..number).map(|_| Table::from_record(&table(&mut random, family, n)).expect("a table")).collect()
}

/// The least microseconds for a table over the rounds.
fn best(tables: &[Table], decide: impl Fn(&Table) -> Verdict) -> f64 {
    let round = || {
        let start = Instant::now();
        let verdicts: Vec<Verdict> = tables.iter().map(&decide).collect();
        let took = start.elapsed();
        assert!(verdicts.iter().all(holds), "a verdict without a certificate");
        took.as_secs_f64() * 1e6 / tables.len() as f64
    };
    (0..ROUNDS).map(|_| round()).fold(f64::INFINITY, f64::min)
}

/// Whether the verdict's certificate is right. An open job has none.
fn holds(verdict: &Verdict) -> bool {
    match verdict {
        Verdict::Gate(gate) => gate.realises(),
        Verdict::Witness(witness) => witness.balances(),
        Verdict::Open(_) => true,
    }
}

fn time_of_deciding(family: Family, n: usize) -> f64 {
    best(&tables(family, n, 2_000), |table| table.decide().verdict)
}

fn time_of_partial(n: usize) -> f64 {
    let mut random = Random(n as u64);
    let table = |_| Table::from_record(&partial_table(&mut random, Family::Threshold, n)).expect("a table");
    best(&(0..2_000).map(table).collect::<Vec<Table>>(), |table| table.decide().verdict)
}

fn time_of_budgets(budget: u32) -> f64 {
    best(&tables(Family::Threshold, 8, 200), |table| {
        let mut verdict = Verdict::Open(SavedJob::fresh(table).expect("no input of a gate is binate"));
        while let Verdict::Open(job) = verdict {
            verdict = job.carry_on(budget).expect("a gate is found below the cap").verdict;
        }
        verdict
    })
}
