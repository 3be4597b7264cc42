//! Damaged records: each cut at each length, with each byte and each number changed, and with faults added to faults, so that the order
//! of the refusals shows. Every call is made on each.

use crate::call::Call;
use crate::compare::Comparison;
use crate::difference::Difference;
use crate::numbers::{about, counts, weights};
use crate::random::Random;
use crate::records::{head_length, job_record, near_cap, put_together, table_of, taken_apart, varied, varied_partial};
use crate::tables::{partial_table, table, Family};
use reference::job::Job;
use reference::table::Table;
use threshold::ROOM;

/// Numbers at the edges of groups and of ranges.
const EDGES: [i64; 14] = [0, 1, 127, 128, 255, 256, 16_383, 16_384, 1_000_000, 1_000_001, 1_999_999, 2_000_000, 2_000_001, 2_000_002];
/// The jobs with parts changed, of tables with every row cared for and of others.
const CHANGED_JOBS: u64 = 40_000;
const CHANGED_PARTIAL_JOBS: u64 = 15_000;

/// How many were compared, of kinds 1 to 4 and of kinds 5 and 6.
pub struct Compared {
    pub full: u64,
    pub partial: u64,
}

/// Compares every call on records of every kind as they are and damaged, and gives the numbers of the damaged ones.
pub fn compare_damaged(comparison: &mut Comparison) -> Result<Compared, Difference> {
    let records = varied(&mut comparison.random);
    let full = compare_each_damaged(comparison, &records)?;
    let records = varied_partial(&mut comparison.random);
    Ok(Compared { full, partial: compare_each_damaged(comparison, &records)? })
}

fn compare_each_damaged(comparison: &mut Comparison, records: &[Vec<u8>]) -> Result<u64, Difference> {
    let mut number = 0;
    for record in records {
        all_calls(comparison, record)?;
        for damaged in damaged(&mut comparison.random, record) {
            all_calls(comparison, &damaged)?;
            number += 1;
        }
    }
    Ok(number)
}

/// Compares every call on jobs with some parts changed, sound or not, and gives their numbers.
pub fn compare_changed_jobs(comparison: &mut Comparison) -> Result<Compared, Difference> {
    const FAMILIES: [Family; 3] = [Family::Threshold, Family::NearlyThreshold, Family::Unate];
    for (number, make) in [(CHANGED_JOBS, table as fn(&mut Random, Family, usize) -> Vec<u8>), (CHANGED_PARTIAL_JOBS, partial_table)] {
        for _ in 0..number {
            let random = &mut comparison.random;
            let (family, n) = (random.choose(&FAMILIES), random.below(5));
            let table = table_of(&make(random, family, n));
            let record = changed_job(random, table);
            all_calls(comparison, &record)?;
        }
    }
    Ok(Compared { full: CHANGED_JOBS, partial: CHANGED_PARTIAL_JOBS })
}

/// Compares the calls on records on the bytes, with arguments and rooms of any kind.
fn all_calls(comparison: &mut Comparison, record: &[u8]) -> Result<(), Difference> {
    let random = &mut comparison.random;
    let budget = random.choose(&[0, 1, 1, 2, 7, 20, 100_000, 100_001, u32::MAX]);
    let row = random.choose(&[0, 1, 2, 3, 7, 8, 100, 255, 256, u32::MAX]);
    for call in [Call::Decide, Call::CarryOn(budget), Call::Fresh, Call::Kinds, Call::Chow] {
        let room = comparison.random.choose(&[0, 7, 8, 15, 16, 40, 100, ROOM]);
        comparison.compare(call, record, room)?;
    }
    for call in [Call::Corrections, Call::Check, Call::Kind, Call::Value(row)] {
        comparison.compare(call, record, 0)?;
    }
    all_numbers(comparison, record)
}

/// Compares the calls to numbers and from numbers on the bytes, with about as many as the second byte's table has.
fn all_numbers(comparison: &mut Comparison, record: &[u8]) -> Result<(), Difference> {
    let random = &mut comparison.random;
    let n = record.get(1).map_or(0, |&inputs| usize::from(inputs.min(8)));
    let [inputs, rows] = [n, 1 << n].map(|right| about(random, right));
    let (weights, counts) = (weights(random, inputs), counts(random, rows));
    let threshold = random.choose(&[0, -1, 1_000_000, -1_000_001]);
    let budget = random.choose(&[0, 1, 1, 2, 7, 20, 100_000, 100_001, u32::MAX]);
    for (call, room) in [(Call::Gate, inputs), (Call::Witness, rows), (Call::FindGate(budget), inputs), (Call::FindWitness(budget), rows)] {
        comparison.compare(call, record, room)?;
    }
    for call in [Call::CheckGate(&weights, threshold), Call::CheckWitness(&counts)] {
        comparison.compare(call, record, 0)?;
    }
    for call in [Call::FromGate(&weights, threshold), Call::FromWitness(&counts)] {
        let room = comparison.random.choose(&[0, 7, 8, 15, 16, 40, 100, ROOM]);
        comparison.compare(call, record, room)?;
    }
    Ok(())
}

/// The record damaged in each way, a third of these damaged again; no two the same, and none the record itself.
fn damaged(random: &mut Random, record: &[u8]) -> Vec<Vec<u8>> {
    let mut records = cut(record);
    records.extend(with_bytes_changed(random, record));
    records.extend(with_cares_changed(random, record));
    records.extend(with_numbers_changed(random, record));
    for at in (0..records.len()).step_by(3) {
        let mut again = records[at].clone();
        damage_again(random, &mut again);
        records.push(again);
    }
    records.sort();
    records.dedup();
    records.retain(|damaged| damaged != record);
    records
}

/// The record cut at each length.
fn cut(record: &[u8]) -> Vec<Vec<u8>> {
    (0..record.len()).map(|length| record[..length].to_vec()).collect()
}

/// The record with each byte changed in several ways, dropped, doubled, and followed by another group.
fn with_bytes_changed(random: &mut Random, record: &[u8]) -> Vec<Vec<u8>> {
    let mut records = vec![[record, &[0]].concat()];
    for (at, &byte) in record.iter().enumerate() {
        let instead: [&[u8]; 11] = [
            &[byte ^ 1],
            &[byte ^ 2],
            &[byte ^ 0x80],
            &[byte.wrapping_sub(1)],
            &[0],
            &[0xff],
            &[random.draw() as u8],
            &[],
            &[byte, byte],
            &[byte | 0x80, 0],
            &[byte | 0x80, 0x80, 0x80],
        ];
        records.extend(instead.map(|bytes| [&record[..at], bytes, &record[at + 1..]].concat()));
    }
    records
}

/// A record of kind 5 or 6 with the care bytes changed: all bits set or none, each row turned (of more than 32, some), and as the values.
fn with_cares_changed(random: &mut Random, record: &[u8]) -> Vec<Vec<u8>> {
    if record[0] < 5 {
        return Vec::new();
    }
    let (end, rows) = (head_length(record), 1usize << record[1]);
    let start = (2 + end) / 2;
    let with = |cares: &[u8]| [&record[..start], cares, &record[end..]].concat();
    let every = if rows < 8 { (1 << rows) - 1 } else { 0xff };
    let length = end - start;
    let mut records = vec![with(&vec![every; length]), with(&vec![0; length]), with(&record[2..start])];
    for row in (0..rows).filter(|_| rows <= 32 || random.one_in(rows / 32)) {
        let mut cares = record[start..end].to_vec();
        cares[row / 8] ^= 1 << (row % 8);
        records.push(with(&cares));
    }
    records
}

/// The record with each number changed to its neighbours and to edges, and with a pair put into its row list.
fn with_numbers_changed(random: &mut Random, record: &[u8]) -> Vec<Vec<u8>> {
    let (head, numbers) = taken_apart(record);
    let mut records = Vec::new();
    for at in 0..numbers.len() {
        let near = [1, 2, -1, -2].map(|by| numbers[at] + by);
        let edges = if record[0] == 2 { EDGES.to_vec() } else { vec![random.choose(&EDGES), random.choose(&EDGES)] };
        for value in near.into_iter().chain(edges).filter(|&value| value >= 0) {
            let mut changed = numbers.clone();
            changed[at] = value;
            records.push(put_together(head, &changed));
        }
    }
    let inputs = usize::from(record[1]);
    let list = if record[0] == 3 { 0 } else { 1 + 2 * (inputs + 1) };
    if [3, 4, 6].contains(&record[0]) {
        for _ in 0..20 {
            let pair = [random.below((1 << inputs) + 2) as i64, random.choose(&[0, 1, 1_000_000, 1_000_001])];
            let place = list + 1 + 2 * random.below((numbers.len() - list).div_ceil(2));
            let mut longer = numbers.clone();
            longer[list] += 1;
            longer.splice(place..place, pair);
            records.push(put_together(head, &longer));
        }
    }
    records
}

/// Cuts the record anywhere, adds a byte, changes one, or adds a group to a number.
fn damage_again(random: &mut Random, record: &mut Vec<u8>) {
    match random.below(4) {
        0 => record.truncate(random.below(record.len() + 1)),
        1 => record.push(random.draw() as u8),
        _ if record.is_empty() => {}
        2 => {
            let at = random.below(record.len());
            record[at] = random.draw() as u8;
        }
        _ => {
            let at = random.below(record.len());
            record[at] |= 0x80;
            record.insert(at + 1, random.choose(&[0, 1, 0x80]));
        }
    }
}

/// The record of the table's job with up to three of its parts moved, by one or to about K. Half of the jobs get the v that fits s and the
/// counts.
fn changed_job(random: &mut Random, table: Table) -> Vec<u8> {
    let n = table.n;
    let mut job = if random.one_in(4) { near_cap(random, table) } else { Job::fresh(table) };
    let budget = 1 + random.below(20) as u32;
    _ = job.carry_on(budget);
    for _ in 0..random.below(4) {
        let by = random.choose(&[-1, 1]);
        let edge = by * (job.k + random.below(2) as i64);
        let row = random.below(job.counts.len());
        match random.below(7) {
            0 => job.k = (job.k + by).max(0),
            1 => job.counts[row] = (job.counts[row] + by).max(0),
            2 => job.v.b += by,
            3 => job.s.b += by,
            4 => job.s.b = edge,
            5 if n > 0 => job.v.a[row % n] += by,
            _ if n > 0 => job.s.a[row % n] = edge,
            _ => {}
        }
    }
    if random.one_in(2) {
        job.v = job.traced();
    }
    job_record(job)
}
