//! Tables from words: every table of up to four inputs, every bit alone, and any words for any number of inputs.

use crate::call::Call;
use crate::compare::Comparison;
use crate::difference::Difference;
use crate::random::Random;
use crate::tables::{any_inputs, every_table};

/// The calls with any words.
const ANY: u64 = 60_000;

/// Compares the tables of all these words.
pub fn compare_words(comparison: &mut Comparison) -> Result<(), Difference> {
    for record in (0..=4).flat_map(every_table) {
        back_by_words(comparison, &record)?;
    }
    for n in 0..=8 {
        every_bit(comparison, n)?;
    }
    for _ in 0..ANY {
        let inputs = any_inputs(&mut comparison.random);
        any_words(comparison, inputs)?;
    }
    Ok(())
}

/// Compares whether the words of a table give its record back: its rows with 0, themselves again or anything past them, and words past
/// the table.
pub fn back_by_words(comparison: &mut Comparison, record: &[u8]) -> Result<(), Difference> {
    let inputs = u32::from(record[1]);
    let random = &mut comparison.random;
    let word = |bytes: &[u8]| bytes.iter().rev().fold(0, |word, &byte| word << 8 | u64::from(byte));
    let mut words: Vec<u64> = record[2..].chunks(8).map(word).collect();
    if inputs < 6 {
        words[0] = with_bits_past(random, words[0], 1 << inputs);
    }
    words.extend((0..random.below(3)).map(|_| random.draw()).collect::<Vec<u64>>());
    let room = record.len() + random.below(3);
    comparison.compare_writing(Call::FromWords(inputs, &words), &[], room, record)
}

/// The word with its lowest bits as they are, and past so many 0, these bits again and again, or any bits.
fn with_bits_past(random: &mut Random, word: u64, rows: usize) -> u64 {
    match random.below(3) {
        0 => word,
        1 => (0..64 / rows).fold(0, |all, time| all | word << (time * rows)),
        _ => random.draw() << rows | word,
    }
}

/// Compares words with one bit alone, and with all but one.
fn every_bit(comparison: &mut Comparison, n: u32) -> Result<(), Difference> {
    for bit in 0..256 {
        let mut words = [0; 4];
        words[bit / 64] = 1 << (bit % 64);
        comparison.compare_in_rooms(Call::FromWords(n, &words), &[])?;
        comparison.compare_in_rooms(Call::FromWords(n, &words.map(|word: u64| !word)), &[])?;
    }
    Ok(())
}

/// Compares any words, enough or too few.
fn any_words(comparison: &mut Comparison, inputs: u32) -> Result<(), Difference> {
    let random = &mut comparison.random;
    let number = random.choose(&[0, 1, 1, 2, 3, 4, 4, 5, 8, 16, 17]);
    let words: Vec<u64> = (0..number).map(|_| random.draw()).collect();
    comparison.compare_in_rooms(Call::FromWords(inputs, &words), &[])?;
    Ok(())
}
