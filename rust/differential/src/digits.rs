//! Tables from hex digits: every table of up to four inputs, every character at every place, and any digits for any number of inputs.

use crate::call::Call;
use crate::compare::Comparison;
use crate::difference::Difference;
use crate::random::Random;
use crate::tables::{any_inputs, every_table};

const DIGITS: &[u8; 22] = b"0123456789abcdefABCDEF";
/// The calls with any digits.
const ANY: u64 = 60_000;

/// Compares the tables of all these digits.
pub fn compare_digits(comparison: &mut Comparison) -> Result<(), Difference> {
    for record in (0..=4).flat_map(every_table) {
        back_by_digits(comparison, &record)?;
    }
    for n in 0..=8 {
        every_character(comparison, n)?;
    }
    for _ in 0..ANY {
        let inputs = any_inputs(&mut comparison.random);
        any_digits(comparison, inputs)?;
    }
    Ok(())
}

/// The digits of a table of n inputs.
fn number_of_digits(n: u32) -> usize {
    if n < 2 {
        1
    } else {
        1 << (n - 2)
    }
}

/// Compares whether the digits of a table's bytes, from the last byte on and each in either case, give its record back.
pub fn back_by_digits(comparison: &mut Comparison, record: &[u8]) -> Result<(), Difference> {
    let inputs = u32::from(record[1]);
    let all: Vec<u8> = record[2..].iter().rev().flat_map(|byte| format!("{byte:02x}").into_bytes()).collect();
    let mut digits = all[all.len() - number_of_digits(inputs)..].to_vec();
    let upper = comparison.random.draw();
    for (_, digit) in digits.iter_mut().enumerate().filter(|(place, _)| upper >> place & 1 == 1) {
        digit.make_ascii_uppercase();
    }
    let room = record.len() + comparison.random.below(3);
    comparison.compare_writing(Call::FromHex(inputs, &digits), &[], room, record)
}

/// Right digits, in any case.
fn right_digits(random: &mut Random, number: usize) -> Vec<u8> {
    (0..number).map(|_| random.choose(DIGITS)).collect()
}

/// Compares each of 256 characters at each place of otherwise right digits.
fn every_character(comparison: &mut Comparison, n: u32) -> Result<(), Difference> {
    for place in 0..number_of_digits(n) {
        for character in 0..=u8::MAX {
            let mut digits = right_digits(&mut comparison.random, number_of_digits(n));
            digits[place] = character;
            comparison.compare_in_rooms(Call::FromHex(n, &digits), &[])?;
        }
    }
    Ok(())
}

/// Compares digits that are as many as they must be or not, right or with a wrong character.
fn any_digits(comparison: &mut Comparison, inputs: u32) -> Result<(), Difference> {
    let random = &mut comparison.random;
    let right = number_of_digits(inputs.min(10));
    let number = random.choose(&[right, right, right, right - 1, right + 1, 2 * right, right / 2, 0, 1, 2, 64, 65]);
    let mut digits = right_digits(random, number);
    if number > 0 && random.one_in(3) {
        digits[random.below(number)] = random.choose(b"\0 \n/:@G`gxX_-+\x7f\x80\xff");
    }
    comparison.compare_in_rooms(Call::FromHex(inputs, &digits), &[])?;
    Ok(())
}
