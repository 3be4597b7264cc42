//! Tables as they are written elsewhere, by the text of `include/threshold.h`: the bits of all rows in one list, from row 0 on.

use crate::refusal::{demand, Refusal};
use crate::table::Table;

/// The rows of a table of so many inputs.
fn rows(inputs: u32) -> Result<usize, Refusal> {
    demand(inputs <= 8, Refusal::InputsAboveEight)?;
    Ok((0..inputs).fold(1, |rows, _| 2 * rows))
}

/// The table of the first bits, as many as it has rows, with every row cared for.
fn table(inputs: u32, bits: impl Iterator<Item = bool>) -> Result<Table, Refusal> {
    Ok(Table::full(inputs as usize, bits.take(rows(inputs)?).collect()))
}

/// The bits of words, the lowest first, one word after another.
fn bits_of(words: &[u64]) -> impl Iterator<Item = bool> + '_ {
    words.iter().flat_map(|word| (0..64).map(move |bit| (word >> bit) % 2 == 1))
}

/// The table that hex digits stand for. Written out as bits, the highest of each digit first, the last is that of row 0.
pub fn from_hex(inputs: u32, digits: &[u8]) -> Result<Table, Refusal> {
    demand(digits.len() == rows(inputs)?.div_ceil(4), Refusal::DigitCount)?;
    let mut bits = Vec::new();
    for &digit in digits {
        let value = char::from(digit).to_digit(16).ok_or(Refusal::NotADigit)?;
        bits.extend([8, 4, 2, 1].map(|bit| value & bit != 0));
    }
    table(inputs, bits.into_iter().rev())
}

/// The table that words of 64 rows stand for.
pub fn from_words(inputs: u32, words: &[u64]) -> Result<Table, Refusal> {
    demand(64 * words.len() >= rows(inputs)?, Refusal::TooFewWords)?;
    table(inputs, bits_of(words))
}

/// The table that words of 64 rows stand for, with the rows cared for that words laid out alike say.
pub fn from_cares(inputs: u32, words: &[u64], cares: &[u64]) -> Result<Table, Refusal> {
    let rows = rows(inputs)?;
    demand(64 * words.len() >= rows && 64 * cares.len() >= rows, Refusal::TooFewWords)?;
    Table::with_cares(inputs as usize, bits_of(words).take(rows).collect(), bits_of(cares).take(rows).collect())
}
