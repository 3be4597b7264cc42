//! Weights and counts for certificates: small ones, and ones at the edges of groups, of ranges and of words.

use crate::random::Random;

/// Weights in range: 0, about the edges of one and two groups, and about the limit.
const WEIGHTS: [i32; 16] = [0, 1, -1, 2, 63, 64, -64, -65, 8_191, 8_192, -8_192, -8_193, 999_999, -999_999, 1_000_000, -1_000_000];
/// Weights out of range: just past the limit, past three groups, and where doubling or a change of sign leaves 32 bits.
const FAR_WEIGHTS: [i32; 10] = [1_000_001, -1_000_001, 1_048_576, -1_048_577, 1 << 21, 1 << 30, -1 << 30, i32::MAX, i32::MIN + 1, i32::MIN];
/// Counts in range.
const COUNTS: [u32; 9] = [0, 1, 2, 127, 128, 16_383, 16_384, 999_999, 1_000_000];
/// Counts out of range.
const FAR_COUNTS: [u32; 7] = [1_000_001, (1 << 21) - 1, 1 << 21, 1 << 28, 1 << 31, (1 << 31) + 1, u32::MAX];

/// Every weight that is of interest.
pub fn every_weight() -> impl Iterator<Item = i32> {
    WEIGHTS.into_iter().chain(FAR_WEIGHTS)
}

/// Every count that is of interest.
pub fn every_count() -> impl Iterator<Item = u32> {
    COUNTS.into_iter().chain(FAR_COUNTS)
}

/// So many weights: small, or from the edges of the range, in one of four with one that is out of range.
pub fn weights(random: &mut Random, number: usize) -> Vec<i32> {
    let small = random.one_in(2);
    let weight = |random: &mut Random| if small { random.around_zero(30) as i32 } else { random.choose(&WEIGHTS) };
    let mut weights: Vec<i32> = (0..number).map(|_| weight(random)).collect();
    if number > 0 && random.one_in(4) {
        weights[random.below(number)] = random.choose(&FAR_WEIGHTS);
    }
    weights
}

/// So many counts: all 0 but for a few, small, or from the edges of the range, in one of four with one that is out of range.
pub fn counts(random: &mut Random, number: usize) -> Vec<u32> {
    let mut counts = vec![0; number];
    match random.below(3) {
        0 if number > 0 => (0..random.below(4)).for_each(|_| counts[random.below(number)] = random.choose(&COUNTS)),
        1 => counts.iter_mut().for_each(|count| *count = random.below(3) as u32),
        _ => counts.iter_mut().for_each(|count| *count = random.choose(&COUNTS)),
    }
    if number > 0 && random.one_in(4) {
        counts[random.below(number)] = random.choose(&FAR_COUNTS);
    }
    counts
}

/// The right number mostly, or one about it, or none.
pub fn about(random: &mut Random, right: usize) -> usize {
    random.choose(&[right, right, right, right, right.saturating_sub(1), right + 1, 2 * right, 0])
}
