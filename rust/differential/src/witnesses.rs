//! Witnesses from counts and back: counts of every number, every value at every row, every room, and any witnesses.

use crate::call::Call;
use crate::compare::Comparison;
use crate::difference::Difference;
use crate::numbers::{about, counts, every_count};
use crate::records::table_record;
use crate::tables::{table, Family};
use threshold::ROOM;

/// Witnesses of any counts for each n.
const ANY: u64 = 4_000;

/// Compares all these witnesses.
pub fn compare_witnesses(comparison: &mut Comparison) -> Result<(), Difference> {
    for n in 0..=8 {
        let record = table(&mut comparison.random, Family::Random, n);
        every_number(comparison, &record)?;
        every_value(comparison, &record)?;
        every_room(comparison, &record)?;
        for _ in 0..ANY {
            any_witness(comparison, n)?;
        }
    }
    Ok(())
}

/// Compares whether the counts of a witness's record give it back.
pub fn back_by_counts(comparison: &mut Comparison, record: &[u8]) -> Result<(), Difference> {
    let rows = 1 << record[1];
    let outcome = comparison.compare(Call::Witness, record, rows + 1)?;
    let counts = &outcome.lent.counts[..rows];
    comparison.compare_writing(Call::FromWitness(counts), &table_record(record), record.len() + 1, record)
}

/// Compares a witness of these counts and, if it is accepted, the way back.
fn witness(comparison: &mut Comparison, record: &[u8], counts: &[u32]) -> Result<(), Difference> {
    let outcome = comparison.compare_in_rooms(Call::FromWitness(counts), record)?;
    outcome.written().map_or(Ok(()), |written| back_by_counts(comparison, written))
}

/// Compares counts of every number up to some more than 2^n: all 0, all 1, all past the limit, or any.
fn every_number(comparison: &mut Comparison, record: &[u8]) -> Result<(), Difference> {
    let rows = 1 << record[1];
    for number in (0..rows + 4).chain([256, 257, 512]) {
        let any = counts(&mut comparison.random, number);
        for counts in [vec![0; number], vec![1; number], vec![u32::MAX; number], any] {
            witness(comparison, record, &counts)?;
        }
    }
    Ok(())
}

/// Compares every value at every row, where all other counts are 0 or all are 1.
fn every_value(comparison: &mut Comparison, record: &[u8]) -> Result<(), Difference> {
    let rows: usize = 1 << record[1];
    for row in 0..rows {
        for value in every_count() {
            let mut counts = vec![comparison.random.below(2) as u32; rows];
            counts[row] = value;
            witness(comparison, record, &counts)?;
        }
    }
    Ok(())
}

/// Compares a witness in every room for its record and, back, in every room for its counts.
fn every_room(comparison: &mut Comparison, record: &[u8]) -> Result<(), Difference> {
    let rows: usize = 1 << record[1];
    for count in [1, 1_000_000] {
        let counts = vec![count; rows];
        let outcome = comparison.compare(Call::FromWitness(&counts), record, ROOM)?;
        let written = outcome.written().expect("counts within the limit");
        for room in 0..written.len() + 2 {
            comparison.compare(Call::FromWitness(&counts), record, room)?;
        }
        for room in (0..rows + 3).chain([ROOM]) {
            comparison.compare(Call::Witness, written, room)?;
        }
    }
    Ok(())
}

/// Compares any counts, mostly as many as there are rows.
fn any_witness(comparison: &mut Comparison, n: usize) -> Result<(), Difference> {
    let random = &mut comparison.random;
    let record = table(random, Family::Random, n);
    let number = about(random, 1 << n);
    let counts = counts(random, number);
    witness(comparison, &record, &counts)
}
