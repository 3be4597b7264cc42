//! Tables with rows that are not cared for, decided: every one of up to three inputs, the samples with a row left free, and random ones of
//! up to eight inputs.

use crate::call::Call;
use crate::cares::back_by_cares;
use crate::compare::Comparison;
use crate::difference::Difference;
use crate::records::{job_record, table_of};
use crate::tables::{every_partial_table, partial_table, samples, with_row_free, Family};
use crate::verdicts::inputs_and_rows;
use reference::calls::{carried, gate_of_job, witness_of_job};
use reference::job::{Job, Stage};
use threshold::{CALL_BUDGET, ROOM};

/// Random tables of each family by n, 0 to 8.
const RANDOM: [(Family, [usize; 9]); 4] = [
    (Family::Random, [20, 100, 1_000, 5_000, 10_000, 10_000, 6_000, 3_000, 1_500]),
    (Family::Threshold, [20, 100, 1_000, 5_000, 10_000, 8_000, 3_000, 800, 300]),
    (Family::NearlyThreshold, [20, 100, 1_000, 5_000, 10_000, 8_000, 3_000, 800, 300]),
    (Family::Unate, [20, 100, 1_000, 5_000, 10_000, 8_000, 3_000, 800, 300]),
];

/// What the tables came to: a gate, a witness, or an open job.
#[derive(Clone, Copy, Default)]
pub struct Verdicts {
    pub gates: u64,
    pub witnesses: u64,
    pub open: u64,
}

impl Verdicts {
    fn add(&mut self, job: &Job) {
        match job.stage {
            Stage::Found => self.gates += 1,
            Stage::Looped | Stage::Binate => self.witnesses += 1,
            Stage::Open => self.open += 1,
        }
    }
}

/// Compares the verdicts of all these tables, and gives what they came to: every one of up to three inputs, the samples, the random ones.
pub fn compare_partial(comparison: &mut Comparison) -> Result<[Verdicts; 3], Difference> {
    let [mut every, mut sampled, mut random] = [Verdicts::default(); 3];
    for record in (0..=3).flat_map(every_partial_table) {
        verdict(comparison, &record, true, &mut every)?;
    }
    for record in samples() {
        let last = (1 << record[1]) - 1;
        for free in [0, last] {
            verdict(comparison, &with_row_free(&record, free), true, &mut sampled)?;
        }
    }
    for (family, numbers) in RANDOM {
        for (n, number) in numbers.into_iter().enumerate() {
            for _ in 0..number {
                let record = partial_table(&mut comparison.random, family, n);
                let whole = comparison.random.one_in(8);
                verdict(comparison, &record, whole, &mut random)?;
            }
        }
    }
    Ok([every, sampled, random])
}

/// Compares a table's verdict, by its record and by numbers, and the checks of these numbers; with `whole` also all else that can be asked.
/// The reference's machine runs once.
fn verdict(comparison: &mut Comparison, record: &[u8], whole: bool, verdicts: &mut Verdicts) -> Result<(), Difference> {
    let mut job = Job::fresh(table_of(record));
    let decided = carried(&mut job, CALL_BUDGET, ROOM);
    comparison.compare_handing(Call::Decide, record, decided.clone(), ROOM)?;
    let fresh = comparison.compare(Call::Fresh, record, ROOM)?;
    let made = job.k as u32;
    found(comparison, record, &job, made, whole)?;
    checked(comparison, record, &job)?;
    verdicts.add(&job);
    if job.stage == Stage::Open {
        carried_on(comparison, &job)?;
    }
    if !whole {
        return Ok(());
    }
    for room in [0, decided.as_ref().map_or(0, |handed| handed.bytes.len() - 1)] {
        comparison.compare_handing(Call::Decide, record, decided.clone(), room)?;
        comparison.compare(Call::Fresh, record, room)?;
    }
    if let Some(fresh) = fresh.written().filter(|fresh| [4, 6].contains(&fresh[0])) {
        comparison.compare(Call::Corrections, fresh, 0)?;
        comparison.compare_handing(Call::CarryOn(CALL_BUDGET), fresh, decided, ROOM)?;
        found(comparison, fresh, &job, made, false)?;
    }
    back_by_cares(comparison, record)?;
    inputs_and_rows(comparison, record)
}

/// Compares what an open job comes to within another call's budget.
fn carried_on(comparison: &mut Comparison, job: &Job) -> Result<(), Difference> {
    let (record, mut next) = (job_record(job.clone()), job.clone());
    let answer = carried(&mut next, CALL_BUDGET, ROOM);
    comparison.compare_handing(Call::CarryOn(CALL_BUDGET), &record, answer, ROOM)?;
    found(comparison, &record, &next, (next.k - job.k) as u32, true)
}

/// Compares the gate and the witness that the job of a record gives, which comes to this by so many corrections; with `rooms` in rooms
/// about the answer's.
fn found(comparison: &mut Comparison, record: &[u8], job: &Job, made: u32, rooms: bool) -> Result<(), Difference> {
    let [inputs, rows] = [job.table.n, 1 << job.table.n];
    let of = |needed: usize| if rooms { vec![0, needed.saturating_sub(1), needed, needed + 1] } else { vec![needed] };
    for room in of(inputs) {
        let gate = gate_of_job(job, made, room);
        comparison.compare_finding(Call::FindGate(CALL_BUDGET), record, room, |lent| lent.finding_gate(gate))?;
    }
    for room in of(rows) {
        let witness = witness_of_job(job, made, room);
        comparison.compare_finding(Call::FindWitness(CALL_BUDGET), record, room, |lent| lent.finding_witness(witness))?;
    }
    Ok(())
}

/// Compares the checks of what a job has come to, and of the same with one number moved a little; no record is made of them for a table
/// with a row that is not cared for.
fn checked(comparison: &mut Comparison, record: &[u8], job: &Job) -> Result<(), Difference> {
    if let Some(gate) = job.gate() {
        let mut weights: Vec<i32> = gate.weights.iter().map(|&weight| weight as i32).collect();
        let mut threshold = gate.threshold as i32;
        comparison.compare(Call::CheckGate(&weights, threshold), record, 0)?;
        comparison.compare(Call::FromGate(&weights, threshold), record, ROOM)?;
        let random = &mut comparison.random;
        let (place, by) = (random.below(weights.len() + 1), random.choose(&[-2, -1, 1, 2]));
        *weights.get_mut(place).unwrap_or(&mut threshold) += by;
        comparison.compare(Call::CheckGate(&weights, threshold), record, 0)?;
    }
    if let Some(witness) = job.witness() {
        let mut counts: Vec<u32> = witness.counts.iter().map(|&count| count as u32).collect();
        comparison.compare(Call::CheckWitness(&counts), record, 0)?;
        comparison.compare(Call::FromWitness(&counts), record, ROOM)?;
        let row = comparison.random.below(counts.len());
        counts[row] = counts[row] + 1 - 2 * u32::from(counts[row] > 0 && comparison.random.one_in(2));
        comparison.compare(Call::CheckWitness(&counts), record, 0)?;
    }
    Ok(())
}
