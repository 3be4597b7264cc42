//! Tables to decide, as records of kinds 1 and 5.

use crate::random::Random;
use reference::gate::sum_of_true;
use reference::record::Record;
use reference::table::Table;

/// How the values of a random table are made.
#[derive(Clone, Copy, Debug)]
pub enum Family {
    /// By chance, so most have a binate input.
    Random,
    /// By a gate.
    Threshold,
    /// By a gate but for the rows whose sum is T, which are made by chance: no input with a weight is binate.
    NearlyThreshold,
    /// True at some rows made by chance and at those above them, with some inputs inverted.
    Unate,
}

/// The record of a table.
pub fn record_of(table: Table) -> Vec<u8> {
    Record::Table(table).bytes().expect("a table has a record")
}

/// The record of the table with these values.
pub fn record(n: usize, value: impl FnMut(usize) -> bool) -> Vec<u8> {
    record_of(Table::full(n, (0..1 << n).map(value).collect()))
}

/// The record of the table with these values; a row without one is not cared for.
fn partial_record(n: usize, value: impl FnMut(usize) -> Option<bool>) -> Vec<u8> {
    let rows: Vec<Option<bool>> = (0..1 << n).map(value).collect();
    record_of(Table { n, values: rows.iter().map(|&row| row == Some(true)).collect(), cares: rows.iter().map(Option::is_some).collect() })
}

/// Every table of n inputs.
pub fn every_table(n: usize) -> impl Iterator<Item = Vec<u8>> {
    (0..1u64 << (1 << n)).map(move |bits| record(n, |row| bits >> row & 1 == 1))
}

/// Every table of n inputs with each row true, false or not cared for: 3^(2^n), those with every row cared for among them.
pub fn every_partial_table(n: usize) -> impl Iterator<Item = Vec<u8>> {
    let values = [Some(false), Some(true), None];
    (0..3usize.pow(1 << n)).map(move |code| partial_record(n, |row| values[code / 3usize.pow(row as u32) % 3]))
}

/// Any number of inputs: mostly one that a table has, or one just above, or one whose lowest bits alone a table has.
pub fn any_inputs(random: &mut Random) -> u32 {
    let small = random.below(11) as u32;
    match random.below(8) {
        0 => random.choose(&[9, 10, 16, 31, 32, 33, 64, 255, 256, 258, 264, 65_536, 65_540, 1 << 31, (1 << 31) + 2, u32::MAX]),
        _ => small,
    }
}

/// The papers' functions and the marked cases, from the repository's sample for the report.
pub fn samples() -> Vec<Vec<u8>> {
    let mut rest = &include_bytes!("../../../samples/papers.bin")[..];
    let mut samples = Vec::new();
    while let [_, n, ..] = *rest {
        let (sample, after) = rest.split_at(2 + (1usize << n).div_ceil(8));
        samples.push(sample.to_vec());
        rest = after;
    }
    samples
}

/// A table with this row not cared for.
pub fn with_row_free(record: &[u8], free: usize) -> Vec<u8> {
    let Ok(Record::Table(table)) = Record::read(record) else { panic!("no table") };
    partial_record(table.n, |row| (row != free && table.cares[row]).then_some(table.values[row]))
}

/// A random table of the family of which some rows, at least one, are not cared for, and in two of three some have the other value.
pub fn partial_table(random: &mut Random, family: Family, n: usize) -> Vec<u8> {
    let Ok(Record::Table(full)) = Record::read(&table(random, family, n)) else { panic!("no table") };
    // So many of 64 rows are cared for.
    let cared = if random.one_in(50) { 0 } else { random.choose(&[8, 24, 40, 52, 60, 64]) };
    let (free, turned) = (random.below(1 << n), random.below(3));
    partial_record(n, |row| {
        let turns = random.below(1 << n) < turned;
        (row != free && random.below(64) < cared).then_some(full.values[row] != turns)
    })
}

/// A random table of the family.
pub fn table(random: &mut Random, family: Family, n: usize) -> Vec<u8> {
    match family {
        Family::Random => record(n, |_| random.one_in(2)),
        Family::Threshold => by_gate(random, n, |_, above| above >= 0),
        Family::NearlyThreshold => by_gate(random, n, |random, above| above > 0 || above == 0 && random.one_in(2)),
        Family::Unate => {
            let inverted = random.below(1 << n);
            let lowest: Vec<usize> = (0..=random.below(2 + n)).map(|_| random.below(1 << n)).collect();
            record(n, |row| lowest.iter().any(|low| low & (row ^ inverted) == *low))
        }
    }
}

/// A table whose values follow from how far a row's sum is above T, which is some row's sum.
fn by_gate(random: &mut Random, n: usize, value: impl Fn(&mut Random, i64) -> bool) -> Vec<u8> {
    let largest = random.choose(&[1, 3, 8, 20]);
    let weights: Vec<i64> = (0..n).map(|_| random.around_zero(largest)).collect();
    let threshold = sum_of_true(&weights, random.below(1 << n));
    record(n, |row| value(random, sum_of_true(&weights, row) - threshold))
}
