//! Gates from numbers and back: weights of every number, every value at every place, every room, and any gates.

use crate::call::Call;
use crate::compare::Comparison;
use crate::difference::Difference;
use crate::numbers::{about, every_weight, weights};
use crate::records::table_record;
use crate::tables::{table, Family};
use threshold::ROOM;

/// Gates of any numbers for each n.
const ANY: u64 = 4_000;

/// Compares all these gates.
pub fn compare_gates(comparison: &mut Comparison) -> Result<(), Difference> {
    for n in 0..=8 {
        let record = table(&mut comparison.random, Family::Random, n);
        every_number(comparison, &record)?;
        every_value(comparison, &record)?;
        every_room(comparison, &record)?;
        for _ in 0..ANY {
            any_gate(comparison, n)?;
        }
    }
    Ok(())
}

/// Compares whether the numbers of a gate's record give it back.
pub fn back_by_weights(comparison: &mut Comparison, record: &[u8]) -> Result<(), Difference> {
    let n = usize::from(record[1]);
    let outcome = comparison.compare(Call::Gate, record, n + 1)?;
    let (weights, threshold) = (&outcome.lent.weights[..n], outcome.lent.threshold);
    comparison.compare_writing(Call::FromGate(weights, threshold), &table_record(record), record.len() + 1, record)
}

/// Compares a gate of these numbers and, if it is accepted, the way back.
fn gate(comparison: &mut Comparison, record: &[u8], weights: &[i32], threshold: i32) -> Result<(), Difference> {
    let outcome = comparison.compare_in_rooms(Call::FromGate(weights, threshold), record)?;
    outcome.written().map_or(Ok(()), |written| back_by_weights(comparison, written))
}

/// Compares weights of every number up to some more than n, in range or not.
fn every_number(comparison: &mut Comparison, record: &[u8]) -> Result<(), Difference> {
    for number in (0..=12).chain([16, 64, 256]) {
        let any = weights(&mut comparison.random, number);
        gate(comparison, record, &any, 0)?;
        gate(comparison, record, &vec![0; number], i32::MIN)?;
        gate(comparison, record, &vec![1_000_000; number], -1_000_000)?;
    }
    Ok(())
}

/// Compares every value at the place of every weight and of T.
fn every_value(comparison: &mut Comparison, record: &[u8]) -> Result<(), Difference> {
    let n = usize::from(record[1]);
    for place in 0..=n {
        for value in every_weight() {
            let mut numbers: Vec<i32> = (0..=n).map(|_| comparison.random.around_zero(100) as i32).collect();
            numbers[place] = value;
            gate(comparison, record, &numbers[..n], numbers[n])?;
        }
    }
    Ok(())
}

/// Compares a gate in every room for its record and, back, in every room for its weights.
fn every_room(comparison: &mut Comparison, record: &[u8]) -> Result<(), Difference> {
    let n = usize::from(record[1]);
    for weight in [0, -100, 1_000_000] {
        let weights = vec![weight; n];
        let outcome = comparison.compare(Call::FromGate(&weights, weight), record, ROOM)?;
        let written = outcome.written().expect("weights within the limit");
        for room in 0..written.len() + 2 {
            comparison.compare(Call::FromGate(&weights, weight), record, room)?;
        }
        for room in (0..n + 3).chain([ROOM]) {
            comparison.compare(Call::Gate, written, room)?;
        }
    }
    Ok(())
}

/// Compares any weights, mostly as many as there are inputs, with any T.
fn any_gate(comparison: &mut Comparison, n: usize) -> Result<(), Difference> {
    let random = &mut comparison.random;
    let record = table(random, Family::Random, n);
    let number = about(random, n);
    let numbers = weights(random, number + 1);
    gate(comparison, &record, &numbers[..number], numbers[number])
}
