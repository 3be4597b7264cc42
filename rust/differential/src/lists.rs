//! Lists of calls on one job. The library gets the record that its last accepted call wrote; beside it the reference's machine runs
//! unbroken, fed the accepted budgets alone, and says what each call must do.

use crate::call::Call;
use crate::compare::Comparison;
use crate::damage::Compared;
use crate::difference::Difference;
use crate::random::Random;
use crate::records::{before_looping_at_a_power, job_record, near_cap, table_of, untouched};
use crate::tables::{partial_table, samples, table, Family};
use reference::calls::{carried, gate_of_job, witness_of_job};
use reference::job::{Job, Stage};
use reference::refusal::Refusal;
use threshold::ROOM;

/// The lists from random jobs, of tables with every row cared for and of others, and the most calls of one.
const LISTS: u64 = 22_000;
const PARTIAL_LISTS: u64 = 4_000;
const CALLS: usize = 40;
/// The calls between carry-ons.
const OTHERS: [Call; 10] = [
    Call::Decide,
    Call::Fresh,
    Call::Corrections,
    Call::Check,
    Call::Gate,
    Call::Witness,
    Call::Kind,
    Call::Kinds,
    Call::Chow,
    Call::Value(0),
];

/// Compares the lists, and gives their numbers.
pub fn compare_lists(comparison: &mut Comparison) -> Result<Compared, Difference> {
    for (number, make) in [(LISTS, table as fn(&mut Random, Family, usize) -> Vec<u8>), (PARTIAL_LISTS, partial_table)] {
        for _ in 0..number {
            let job = first_job(&mut comparison.random, make);
            let most = comparison.random.choose(&[1, 5, 50, 1_000]);
            list(comparison, job, most)?;
        }
    }
    let whole = samples().into_iter().map(|record| untouched(table_of(&record))).filter(Job::is_sound);
    let jobs: Vec<Job> = whole.chain(before_looping_at_a_power()).collect();
    for job in &jobs {
        list(comparison, job.clone(), 100_000)?;
    }
    Ok(Compared { full: LISTS + jobs.len() as u64, partial: PARTIAL_LISTS })
}

/// A fresh open job of a table that is made so, or, one time in eight, a sound one near the cap.
fn first_job(random: &mut Random, make: fn(&mut Random, Family, usize) -> Vec<u8>) -> Job {
    loop {
        let family = random.choose(&[Family::Threshold, Family::NearlyThreshold, Family::Unate]);
        let n = random.choose(&[0, 1, 2, 3, 3, 4, 4, 5, 6, 8]);
        let table = table_of(&make(random, family, n));
        let job = if random.one_in(8) { near_cap(random, table) } else { untouched(table) };
        if job.is_sound() {
            return job;
        }
    }
}

/// One list: carry-ons with any rooms and budgets, few above `most`, with other calls between.
fn list(comparison: &mut Comparison, mut machine: Job, most: usize) -> Result<(), Difference> {
    let mut record = job_record(machine.clone());
    for _ in 0..CALLS {
        let random = &mut comparison.random;
        if random.one_in(4) {
            let call = random.choose(&OTHERS);
            let room = random.below(200);
            comparison.compare(call, &record, room)?;
        } else {
            let budget = any_budget(random, Job::CAP - machine.k, most);
            carry_on(comparison, &mut machine, &mut record, budget)?;
        }
        if machine.stage != Stage::Open && comparison.random.one_in(4) {
            break;
        }
    }
    Ok(())
}

/// A budget up to `most`; or one that no call takes; or one about what is left up to the cap, and above it where that is far.
fn any_budget(random: &mut Random, left: i64, most: usize) -> u32 {
    match random.below(8) {
        0 => random.choose(&[0, 100_001, u32::MAX]),
        1 if left <= 1_000 => left as u32 + random.below(3) as u32,
        1 if left <= 100_000 => left as u32 + 1,
        _ => 1 + random.below(most) as u32,
    }
}

/// Compares one carry-on of the record with the machine's, and what is found by it. If it is accepted, both go on from what it gave. One
/// that ends the job of a table with a row not cared for is refused, since no record carries its end.
fn carry_on(comparison: &mut Comparison, machine: &mut Job, record: &mut Vec<u8>, budget: u32) -> Result<(), Difference> {
    let mut next = machine.clone();
    let answer = match machine.stage {
        Stage::Open => carried(&mut next, budget, ROOM),
        _ => Err(Refusal::OtherKind),
    };
    let made = (next.k - machine.k) as u32;
    let refused = answer.as_ref().err().copied().filter(|&refusal| refusal != Refusal::Care);
    let room = comparison.random.choose(&[0, 1, 3, 8, 256, ROOM]);
    let gate = refused.map_or_else(|| gate_of_job(&next, made, room), Err);
    comparison.compare_finding(Call::FindGate(budget), record, room, |lent| lent.finding_gate(gate))?;
    let witness = refused.map_or_else(|| witness_of_job(&next, made, room), Err);
    comparison.compare_finding(Call::FindWitness(budget), record, room, |lent| lent.finding_witness(witness))?;
    let needed = answer.as_ref().map_or(0, |handed| handed.bytes.len());
    let any = comparison.random.below(ROOM);
    let room = comparison.random.choose(&[any, needed.saturating_sub(1), needed, needed + 1, ROOM]);
    let outcome = comparison.compare_handing(Call::CarryOn(budget), record, answer, room)?;
    if let Some(written) = outcome.written() {
        *record = written.to_vec();
        *machine = next;
    }
    Ok(())
}
