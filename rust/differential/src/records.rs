//! Records to damage and to carry on: right ones of every kind, and jobs that a rule of soundness alone shuts out.

use crate::random::Random;
use crate::tables::{partial_table, samples, table, Family};
use reference::job::{Job, Stage, Vector};
use reference::record::{put_number, Record};
use reference::table::Table;

/// The budgets after which a job's record is taken: before, at and after powers of two.
const BUDGETS: [u32; 6] = [1, 2, 3, 8, 13, 100];

/// The table of a record of kind 1 or 5.
pub fn table_of(record: &[u8]) -> Table {
    match Record::read(record) {
        Ok(Record::Table(table)) => table,
        other => panic!("no table: {other:?}"),
    }
}

/// The record of an open job, or of one that is written as such.
pub fn job_record(job: Job) -> Vec<u8> {
    Record::Job(job).bytes().expect("a job has a record")
}

/// The kind 1 record of the table of a certificate's record.
pub fn table_record(record: &[u8]) -> Vec<u8> {
    let (head, _) = taken_apart(record);
    [&[1], &head[1..]].concat()
}

/// A job with all numbers 0 in stage open, binate table or not.
pub fn untouched(table: Table) -> Job {
    let (zero, counts) = (Vector::zero(table.n), vec![0; table.values.len()]);
    Job::open(table, 0, zero.clone(), zero, counts)
}

/// A job with a K near the cap, some past it, whose counts and vectors fit one another. The counts are on rows cared for, if there are any.
pub fn near_cap(random: &mut Random, table: Table) -> Job {
    let mut rows: Vec<usize> = table.cared_rows().collect();
    if rows.is_empty() {
        rows.push(0);
    }
    let mut job = untouched(table);
    let k = 1_000_010 - random.choose(&[5, 20, 1_000, 50_000]) + random.around_zero(10);
    let mut rest = k - (1 << 19);
    while rest > 0 {
        let row = random.choose(&rows);
        let count = if random.one_in(4) { rest } else { 1 + random.below(rest as usize) as i64 };
        job.counts[row] += count;
        rest -= count;
    }
    let s = Vector { a: job.v.a.iter().map(|_| random.around_zero(300)).collect(), b: random.around_zero(300) };
    job = Job::open(job.table, k, s.clone(), s, job.counts);
    job.v = job.traced();
    job
}

/// The jobs of samples that loop, each moved to where its next step loops at a power of two: K is one below, and the loop is counted as
/// often as it fits between the mark and K.
pub fn before_looping_at_a_power() -> Vec<Job> {
    const MARK: i64 = 1 << 16;
    let moved = |record: &Vec<u8>| {
        let mut job = Job::fresh(table_of(record));
        let mut before = job.clone();
        while job.stage == Stage::Open && job.k < 5_000 {
            before = job.clone();
            job.carry_on(1).expect("a budget within the cap");
        }
        let loops = MARK / job.counts.iter().sum::<i64>().max(1);
        let counts: Vec<i64> = job.counts.iter().zip(&before.counts).map(|(now, before)| now * (loops - 1) + before).collect();
        let job = Job::open(job.table, 2 * MARK - 1, before.v, before.s, counts);
        job.is_sound().then_some(job)
    };
    samples().iter().filter_map(moved).collect()
}

/// A table's records: itself, its verdict, its job untouched, after some budgets and at its end, and near the cap. A job is written as
/// an open one in any stage.
fn of_table(random: &mut Random, record: &[u8]) -> Vec<Vec<u8>> {
    let table = table_of(record);
    let mut jobs = vec![untouched(table.clone()), near_cap(random, table.clone())];
    let mut job = Job::fresh(table);
    for budget in BUDGETS {
        job.carry_on(budget).expect("a budget within the cap");
        jobs.push(job.clone());
        if job.stage != Stage::Open {
            break;
        }
    }
    job.carry_on(100_000).expect("a budget within the cap");
    let mut records = vec![record.to_vec()];
    records.extend(job.shown().bytes());
    records.extend(jobs.into_iter().chain([job]).map(job_record));
    records.dedup();
    records
}

/// Records of kinds 1 to 4 for n 0 to 8.
pub fn varied(random: &mut Random) -> Vec<Vec<u8>> {
    let mut tables = samples();
    tables.truncate(20);
    for n in 0..=8 {
        for family in [Family::Random, Family::Threshold, Family::NearlyThreshold, Family::Unate] {
            tables.push(table(random, family, n));
        }
    }
    tables.iter().flat_map(|record| of_table(random, record)).collect()
}

/// Records of kinds 5 and 6 for n 0 to 8.
pub fn varied_partial(random: &mut Random) -> Vec<Vec<u8>> {
    let mut tables = Vec::new();
    for n in 0..=8 {
        let families = if n % 2 == 0 { [Family::Threshold, Family::Unate] } else { [Family::NearlyThreshold, Family::Random] };
        tables.extend(families.map(|family| partial_table(random, family, n)));
    }
    tables.iter().flat_map(|record| of_table(random, record)).collect()
}

/// The bytes of a record before its numbers: kind, n, values and, in kinds 5 and 6, cares.
pub fn head_length(record: &[u8]) -> usize {
    let bits = (1usize << record[1]).div_ceil(8);
    2 + if record[0] >= 5 { 2 * bits } else { bits }
}

/// The bytes up to the table's last, and the numbers after them: every field past the table is one, or the code of a signed one.
pub fn taken_apart(record: &[u8]) -> (&[u8], Vec<i64>) {
    let (head, mut rest) = record.split_at(head_length(record));
    let mut numbers = Vec::new();
    while !rest.is_empty() {
        let groups = 1 + rest.iter().take_while(|&&byte| byte >= 0x80).count();
        numbers.push(rest[..groups].iter().rev().fold(0, |value, &byte| value << 7 | i64::from(byte & 0x7f)));
        rest = &rest[groups..];
    }
    (head, numbers)
}

/// The record of this head and these numbers.
pub fn put_together(head: &[u8], numbers: &[i64]) -> Vec<u8> {
    let mut record = head.to_vec();
    numbers.iter().for_each(|&number| put_number(&mut record, number));
    record
}

/// A certificate's record with one number moved a little, or the count of a witness's row moved to the row that differs in one input.
pub fn nudged(random: &mut Random, record: &[u8]) -> Vec<u8> {
    match Record::read(record) {
        Ok(Record::Witness(table, mut witness)) if random.one_in(2) => {
            let counted: Vec<usize> = table.rows().filter(|&row| witness.counts[row] > 0).collect();
            let row = random.choose(&counted);
            let count = std::mem::take(&mut witness.counts[row]);
            witness.counts[row ^ 1 << random.below(table.n)] += count;
            Record::Witness(table, witness).bytes().expect("a witness that was read")
        }
        _ => {
            let (head, mut numbers) = taken_apart(record);
            let at = random.below(numbers.len());
            numbers[at] = (numbers[at] + random.choose(&[-2, -1, 1, 2])).max(0);
            put_together(head, &numbers)
        }
    }
}
