//! Verdicts, and jobs that are stored and carried on.

use super::{table, SLOW};
use crate::{Outcome, Refusal, SavedJob, Table, Verdict, CALL_BUDGET, CAP};

#[test]
fn a_gate_is_found() {
    let table = Table::new(1, &[0x02]).unwrap();
    let Outcome { verdict: Verdict::Gate(gate), made: 5 } = table.decide() else { panic!() };
    assert_eq!((gate.weights().to_vec(), gate.threshold(), gate.table()), (vec![2], 1, table));
    assert!(gate.realises());
    assert_eq!([0, 1, 2].map(|row| gate.value(row)), [Ok(false), Ok(true), Err(Refusal::Row)]);
}

#[test]
fn a_witness_is_found() {
    let table = Table::from_fn(2, |row| row == 1 || row == 2).unwrap();
    let Outcome { verdict: Verdict::Witness(witness), made: 0 } = table.decide() else { panic!() };
    assert!(witness.rows().eq([(0, 1), (1, 1), (2, 1), (3, 1)]));
    assert!(witness.balances());
    assert_eq!(witness.table(), table);
}

#[test]
fn an_open_job_is_stored_and_carried_on() {
    let table = Table::new(8, &SLOW).unwrap();
    let Outcome { verdict: Verdict::Open(job), made: 100_000 } = table.decide() else { panic!() };
    assert_eq!((job.corrections(), job.table()), (100_000, table));
    let read = SavedJob::from_record(job.record()).unwrap();
    assert_eq!(read, job);
    assert_eq!(read.carry_on(0), Err(Refusal::Budget));
    assert_eq!(read.carry_on(CALL_BUDGET + 1), Err(Refusal::Budget));
    let Ok(Outcome { verdict: Verdict::Open(next), made: 31_075 }) = read.carry_on(31_075) else { panic!() };
    assert_eq!(next.corrections(), 131_075);
    let Ok(Outcome { verdict: Verdict::Witness(witness), made: 1 }) = next.carry_on(1) else { panic!() };
    assert!(witness.balances());
    assert_eq!(job.carry_on(CALL_BUDGET), Ok(Outcome { verdict: Verdict::Witness(witness), made: 31_076 }));
}

/// A number's groups of seven bits, the lowest first.
fn number(value: u32) -> Vec<u8> {
    if value < 0x80 {
        vec![value as u8]
    } else {
        [vec![value as u8 | 0x80], number(value >> 7)].concat()
    }
}

/// A job of the table that is true where both inputs are, after k corrections: since the mark at 2^19 all of them by row 0.
fn job_after(k: u32) -> Result<SavedJob, Refusal> {
    let count = k - (1 << 19);
    let numbers = [k, 0, 0, 2 * count, 0, 0, 0, 1, 0, count]; // K; v and s, signed; one row, which is 0, and its count
    SavedJob::from_record(&[vec![4, 2, 0x08], numbers.map(number).concat()].concat())
}

#[test]
fn a_job_is_carried_on_up_to_the_cap() {
    let job = job_after(CAP - 1).unwrap();
    assert_eq!(job.carry_on(2), Err(Refusal::Cap));
    let Ok(Outcome { verdict: Verdict::Open(last), made: 1 }) = job.carry_on(1) else { panic!() };
    assert_eq!((last.corrections(), last.carry_on(1)), (CAP, Err(Refusal::Cap)));
    assert_eq!(job_after(CAP + 1), Err(Refusal::Unsound));
}

#[test]
fn a_fresh_job_goes_by_any_budgets() {
    let table = table("8");
    let mut verdict = table.fresh();
    let mut calls = 0;
    while let Verdict::Open(job) = verdict {
        assert_eq!(job.corrections(), calls);
        let outcome = job.carry_on(1).unwrap();
        assert_eq!(outcome.made, 1);
        verdict = outcome.verdict;
        calls += 1;
    }
    assert_eq!((Outcome { verdict, made: calls }, calls), (table.decide(), 18));
}

#[test]
fn a_binate_table_has_its_witness_for_a_fresh_job() {
    let (xor, and) = (table("6"), table("8"));
    assert_eq!(Outcome { verdict: xor.fresh(), made: 0 }, xor.decide());
    assert_eq!(SavedJob::fresh(&xor), None);
    assert_eq!(SavedJob::fresh(&and).map(Verdict::Open), Some(and.fresh()));
}
