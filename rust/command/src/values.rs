//! The value of a function on each of the 256 rows of eight inputs.

/// Row r is bit r mod 64 of word r div 64. In row r, input i is true when bit i - 1 of r is 1.
#[derive(Clone, Copy, Debug, PartialEq, Eq)]
pub struct Values([u64; 4]);

impl Values {
    /// True on no row.
    pub const NONE: Values = Values([0; 4]);

    /// True where this holds.
    fn from_fn(value: impl Fn(u32) -> bool) -> Values {
        let mut words = [0; 4];
        (0..256).filter(|&row| value(row)).for_each(|row| words[row as usize / 64] |= 1 << (row % 64));
        Values(words)
    }

    /// True where the input is, 1 to 8.
    pub fn of_input(input: u32) -> Values {
        Values::from_fn(|row| row >> (input - 1) & 1 == 1)
    }

    /// True where more than half of these are.
    pub fn majority(values: &[Values]) -> Values {
        Values::from_fn(|row| 2 * values.iter().filter(|rows| rows.value(row)).count() > values.len())
    }

    /// The value on a row below 256.
    pub fn value(self, row: u32) -> bool {
        self.0[row as usize / 64] >> (row % 64) & 1 == 1
    }

    pub fn words(&self) -> &[u64] {
        &self.0
    }

    pub fn not(self) -> Values {
        Values(self.0.map(|word| !word))
    }

    pub fn and(self, other: Values) -> Values {
        self.both(other, |a, b| a & b)
    }

    pub fn or(self, other: Values) -> Values {
        self.both(other, |a, b| a | b)
    }

    pub fn xor(self, other: Values) -> Values {
        self.both(other, |a, b| a ^ b)
    }

    fn both(self, other: Values, operation: impl Fn(u64, u64) -> u64) -> Values {
        Values(std::array::from_fn(|word| operation(self.0[word], other.0[word])))
    }
}

#[cfg(test)]
mod tests {
    use super::*;

    #[test]
    fn inputs_have_their_rows() {
        assert_eq!(Values::of_input(1).words(), [0xaaaa_aaaa_aaaa_aaaa; 4]);
        assert_eq!(Values::of_input(7).words(), [0, u64::MAX, 0, u64::MAX]);
        assert_eq!(Values::of_input(8).words(), [0, 0, u64::MAX, u64::MAX]);
        assert_eq!(Values::NONE.not().words(), [u64::MAX; 4]);
    }

    #[test]
    fn a_majority_is_more_than_half() {
        let inputs = [1, 2, 3].map(Values::of_input);
        let [a, b, c] = inputs;
        assert_eq!(Values::majority(&inputs), a.and(b).or(a.and(c)).or(b.and(c)));
    }
}
