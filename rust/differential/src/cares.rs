//! Tables from words and cares: every partial table of up to three inputs, every bit alone, and any words for any number of inputs.

use crate::call::Call;
use crate::compare::Comparison;
use crate::difference::Difference;
use crate::random::Random;
use crate::tables::{any_inputs, every_partial_table};

/// The calls with any words.
const ANY: u64 = 30_000;

/// Compares the tables of all these words.
pub fn compare_cares(comparison: &mut Comparison) -> Result<(), Difference> {
    for record in (0..=3).flat_map(every_partial_table) {
        back_by_cares(comparison, &record)?;
    }
    for n in 0..=8 {
        every_bit(comparison, n)?;
    }
    for _ in 0..ANY {
        any_cares(comparison)?;
    }
    Ok(())
}

/// The word with its lowest bits as they are, and any bits past so many.
fn with_bits_past(random: &mut Random, word: u64, rows: usize) -> u64 {
    if rows < 64 && random.one_in(2) {
        random.draw() << rows | word
    } else {
        word
    }
}

/// The words of bytes with a bit for each row, with bits past the rows and words past the table.
fn words(random: &mut Random, bytes: &[u8], rows: usize) -> Vec<u64> {
    let word = |bytes: &[u8]| bytes.iter().rev().fold(0, |word, &byte| word << 8 | u64::from(byte));
    let mut words: Vec<u64> = bytes.chunks(8).map(word).collect();
    words[0] = with_bits_past(random, words[0], rows);
    words.extend((0..random.below(3)).map(|_| random.draw()).collect::<Vec<u64>>());
    words
}

/// Compares whether the words and cares of a table of kind 1 or 5 give its record back.
pub fn back_by_cares(comparison: &mut Comparison, record: &[u8]) -> Result<(), Difference> {
    let (inputs, rows) = (u32::from(record[1]), 1usize << record[1]);
    let (values, cares) = record[2..].split_at(rows.div_ceil(8));
    let random = &mut comparison.random;
    let every = vec![if rows < 8 { (1 << rows) - 1 } else { 0xff }; values.len()];
    let values = words(random, values, rows);
    let cares = words(random, if record[0] == 5 { cares } else { &every }, rows);
    let room = record.len() + random.below(3);
    comparison.compare_writing(Call::FromCares(inputs, &values, &cares), &[], room, record)
}

/// Compares cares with one bit alone and with all but one, of values that are nowhere true, true there alone, and true everywhere.
fn every_bit(comparison: &mut Comparison, n: u32) -> Result<(), Difference> {
    for bit in 0..256 {
        let mut alone = [0; 4];
        alone[bit / 64] = 1 << (bit % 64);
        let others = alone.map(|word: u64| !word);
        for values in [[0; 4], alone, [u64::MAX; 4]] {
            comparison.compare_in_rooms(Call::FromCares(n, &values, &alone), &[])?;
            comparison.compare_in_rooms(Call::FromCares(n, &values, &others), &[])?;
        }
    }
    Ok(())
}

/// Compares any words and cares, enough or too few; in most cases the values are on rows cared for.
fn any_cares(comparison: &mut Comparison) -> Result<(), Difference> {
    let random = &mut comparison.random;
    let inputs = any_inputs(random);
    let numbers = [(); 2].map(|()| random.choose(&[0, 1, 1, 2, 3, 4, 4, 4, 5, 8]));
    let cares: Vec<u64> = (0..numbers[0]).map(|_| random.draw() | random.draw()).collect();
    let strict = !random.one_in(4);
    let values: Vec<u64> =
        (0..numbers[1]).map(|place| random.draw() & if strict { *cares.get(place).unwrap_or(&0) } else { u64::MAX }).collect();
    comparison.compare_in_rooms(Call::FromCares(inputs, &values, &cares), &[])?;
    Ok(())
}
