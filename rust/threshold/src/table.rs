//! Tables, and what is asked of one.

use crate::record::{answered, over_record, Record};
use crate::{calls, Outcome, Refusal, Verdict, CALL_BUDGET};
use std::fmt;
use std::str::FromStr;

/// A truth table of up to eight inputs. In row r, input i (1 to n) is true when bit i - 1 of r is 1.
///
/// It is parsed from and shown as hex digits, the digit of the highest rows first, as ABC and kitty write them. What is shown of a table
/// under two inputs does not say their number: it is one digit, which is parsed as a table of two inputs. A row may be one that is not
/// cared for; where there is one, digits of the rows cared for follow after `@`: `e0@f7`.
///
/// ```
/// use threshold::Table;
///
/// let and: Table = "8000".parse()?; // four inputs, true in row 15
/// assert_eq!(and, Table::from_fn(4, |row| row == 15)?);
/// assert_eq!(and, "0x8000".parse()?);
/// assert_eq!(and.to_string(), "8000");
/// assert_eq!(Table::from_hex(1, "2")?.to_string(), "2"); // "2".parse() has two inputs
/// # Ok::<(), threshold::Refusal>(())
/// ```
#[derive(Clone, PartialEq, Eq, Hash)]
pub struct Table(pub(crate) Record);

over_record!(Table, 1, 5);

/// What making an input true does to a table's value, where the row is cared for before and after.
#[derive(Clone, Copy, Debug, PartialEq, Eq, Hash)]
pub enum InputKind {
    /// It turns no row.
    Idle,
    /// It turns rows from false to true alone.
    Rising,
    /// It turns rows from true to false alone.
    Falling,
    /// It turns rows both ways, so the table has no gate.
    Binate,
}

impl Table {
    /// A table by its bytes, with every row cared for: row r is bit r mod 8 of byte r div 8, and spare bits are 0.
    ///
    /// These bytes rise with the rows, where hex digits fall: the table of digits `f888` has the bytes 0x88, 0xf8.
    ///
    /// # Errors
    ///
    /// [`Refusal::Inputs`] above eight inputs, then [`Refusal::EndsEarly`] for too few bytes, [`Refusal::SpareBit`] for a bit past the
    /// rows, [`Refusal::BytesLeft`] for too many bytes.
    pub fn new(inputs: u32, bytes: &[u8]) -> Result<Table, Refusal> {
        Table::from_record(&[&[1, at_most_eight(inputs)?], bytes].concat())
    }

    /// A table by hex digits of either case, the digit of the highest rows first and without a prefix: 2^n / 4 digits, or one for a table
    /// under two inputs, whose bits past the rows do not count.
    ///
    /// [`str::parse`] takes the number of inputs from the number of digits, and one digit for two inputs: this is for 0 and 1 too.
    ///
    /// ```
    /// use threshold::Table;
    ///
    /// assert_eq!(Table::from_hex(3, "e8")?, "e8".parse()?);
    /// assert_eq!(Table::from_hex(1, "2")?, Table::from_fn(1, |row| row == 1)?);
    /// # Ok::<(), threshold::Refusal>(())
    /// ```
    ///
    /// # Errors
    ///
    /// [`Refusal::Inputs`] above eight inputs, then [`Refusal::Digits`] for another number of digits, [`Refusal::Digit`] for a character
    /// that is none.
    pub fn from_hex(inputs: u32, digits: &str) -> Result<Table, Refusal> {
        Record::written_by(|out| calls::from_hex(inputs, digits.as_bytes(), out)).map(Table)
    }

    /// A table by words of 64 rows: row r is bit r mod 64 of word r div 64. Bits past the rows of a table under six inputs, as where the
    /// rows are replicated, and words past the table do not count.
    ///
    /// ```
    /// use threshold::Table;
    ///
    /// let replicated = Table::from_words(3, &[0xe8e8_e8e8_e8e8_e8e8])?;
    /// assert_eq!(replicated, "e8".parse()?);
    /// assert_eq!(replicated.words(), [0xe8, 0, 0, 0]);
    /// # Ok::<(), threshold::Refusal>(())
    /// ```
    ///
    /// # Errors
    ///
    /// [`Refusal::Inputs`] above eight inputs, then [`Refusal::Words`] for too few words.
    pub fn from_words(inputs: u32, words: &[u64]) -> Result<Table, Refusal> {
        Record::written_by(|out| calls::from_words(inputs, words, out)).map(Table)
    }

    /// A table by words of 64 rows as [`Table::from_words`] takes them, of which the rows are cared for that words laid out alike say. A
    /// row that is not cared for has value false. With every row cared for it is the table of the first words.
    ///
    /// ```
    /// use threshold::Table;
    ///
    /// let partial = Table::from_cares(3, &[0xe0], &[0xf7])?; // row 3 never occurs
    /// assert_eq!(partial.to_string(), "e0@f7");
    /// assert!(partial.check_gate(&[1, 1, 1], 2)?);
    /// assert_eq!(Table::from_cares(3, &[0xe0], &[0xff])?, "e0".parse()?);
    /// # Ok::<(), threshold::Refusal>(())
    /// ```
    ///
    /// # Errors
    ///
    /// [`Refusal::Inputs`] above eight inputs, then [`Refusal::Words`] for too few words of either, [`Refusal::Care`] for a value bit on a
    /// row that is not cared for.
    pub fn from_cares(inputs: u32, words: &[u64], cares: &[u64]) -> Result<Table, Refusal> {
        Record::written_by(|out| calls::from_cares(inputs, words, cares, out)).map(Table)
    }

    /// A table by the value of each row, asked for from row 0 on.
    ///
    /// # Errors
    ///
    /// [`Refusal::Inputs`] above eight inputs.
    pub fn from_fn(inputs: u32, mut value: impl FnMut(u32) -> bool) -> Result<Table, Refusal> {
        Table::from_partial_fn(inputs, |row| Some(value(row)))
    }

    /// A table by the value of each row, asked for from row 0 on, or nothing where the row is not cared for.
    ///
    /// # Errors
    ///
    /// [`Refusal::Inputs`] above eight inputs.
    pub fn from_partial_fn(inputs: u32, mut value: impl FnMut(u32) -> Option<bool>) -> Result<Table, Refusal> {
        let (mut words, mut cares) = ([0; 4], [0; 4]);
        for row in 0..1 << at_most_eight(inputs)? {
            if let Some(value) = value(row) {
                words[row as usize / 64] |= u64::from(value) << (row % 64);
                cares[row as usize / 64] |= 1 << (row % 64);
            }
        }
        Table::from_cares(inputs, &words, &cares)
    }

    /// The bytes of the values, as [`Table::new`] takes them.
    pub fn bytes(&self) -> &[u8] {
        self.0.table_bytes()
    }

    /// The words of the values, as [`Table::from_words`] takes them; past the rows 0.
    pub fn words(&self) -> [u64; 4] {
        words_of(self.bytes())
    }

    /// Whether some row is not cared for.
    pub fn is_partial(&self) -> bool {
        self.0.is_partial()
    }

    /// The words of the rows cared for, as [`Table::from_cares`] takes them; past the rows 0.
    pub fn cares(&self) -> [u64; 4] {
        let rows = 1usize << self.inputs();
        let every = |word: usize| u64::MAX.checked_shr(64 - (rows.saturating_sub(64 * word)).min(64) as u32).unwrap_or(0);
        self.0.care_bytes().map_or_else(|| std::array::from_fn(every), words_of)
    }

    /// Whether a row is cared for.
    ///
    /// # Errors
    ///
    /// [`Refusal::Row`] for a row at or above 2^n.
    pub fn cares_for(&self, row: u32) -> Result<bool, Refusal> {
        self.value(row)?;
        Ok(self.cares()[row as usize / 64] >> (row % 64) & 1 == 1)
    }

    /// The value on a row; false where it is not cared for.
    ///
    /// # Errors
    ///
    /// [`Refusal::Row`] for a row at or above 2^n.
    pub fn value(&self, row: u32) -> Result<bool, Refusal> {
        calls::value(self.record(), row)
    }

    /// The kinds of the inputs, from input 1 on; past n idle.
    pub fn kinds(&self) -> [InputKind; 8] {
        let mut kinds = [0; 8];
        answered(calls::kinds(self.record(), &mut kinds));
        kinds.map(|kind| [InputKind::Idle, InputKind::Rising, InputKind::Falling, InputKind::Binate][usize::from(kind)])
    }

    /// Chow's parameters q of the inputs, from input 1 on, by the values; past n 0.
    pub fn chow(&self) -> [i16; 8] {
        let mut bytes = [0; 16];
        answered(calls::chow(self.record(), &mut bytes));
        std::array::from_fn(|place| i16::from_le_bytes([bytes[2 * place], bytes[2 * place + 1]]))
    }

    /// Decides the table within 100,000 corrections.
    ///
    /// ```
    /// use threshold::Table;
    ///
    /// assert_eq!("e8".parse::<Table>()?.decide().verdict.to_string(), "gate 2 x1 + 3 x2 + 3 x3 >= 4");
    /// assert_eq!("f888".parse::<Table>()?.decide().verdict.to_string(), "no gate 3 12 = 6 9");
    /// # Ok::<(), threshold::Refusal>(())
    /// ```
    pub fn decide(&self) -> Outcome {
        answered(Outcome::of(&self.0, CALL_BUDGET, |out, made| calls::decide(self.record(), out, made)))
    }

    /// The verdict before a correction: the fresh job, to be carried on by budgets of one's own; the witness if an input is binate; or a
    /// gate of weights 0 if no row is cared for.
    pub fn fresh(&self) -> Verdict {
        // A fresh job that has ended stays as it is under any budget.
        answered(Outcome::of(&self.0, 1, |out, _| calls::fresh(self.record(), out))).verdict
    }

    /// Whether a gate, by a weight for each input and its threshold, agrees with the table on every row that is cared for.
    ///
    /// # Errors
    ///
    /// [`Refusal::Numbers`] if there is not a weight for each input, then [`Refusal::Gate`] if one or the threshold is beyond 1,000,000
    /// either way.
    pub fn check_gate(&self, weights: &[i32], threshold: i32) -> Result<bool, Refusal> {
        calls::check_gate(self.record(), weights, threshold)
    }

    /// Whether a witness, by a count for each row, balances against the table.
    ///
    /// # Errors
    ///
    /// [`Refusal::Numbers`] if there is not a count for each row, then [`Refusal::RowList`] if all are 0 or one is above 1,000,000.
    pub fn check_witness(&self, counts: &[u32]) -> Result<bool, Refusal> {
        calls::check_witness(self.record(), counts)
    }

    /// The table and its number of inputs in words.
    pub(crate) fn described(&self) -> String {
        let inputs = self.inputs();
        format!("{self}, {inputs} input{}", if inputs == 1 { "" } else { "s" })
    }
}

/// A number of inputs that a table can have.
fn at_most_eight(inputs: u32) -> Result<u8, Refusal> {
    u8::try_from(inputs).ok().filter(|&inputs| inputs <= 8).ok_or(Refusal::Inputs)
}

/// Hex digits without their prefix, if they have one.
fn without_prefix(text: &str) -> &str {
    text.strip_prefix("0x").or_else(|| text.strip_prefix("0X")).unwrap_or(text)
}

/// The words of bytes, a bit for each row.
fn words_of(bytes: &[u8]) -> [u64; 4] {
    let mut words = [0; 4];
    for (place, &byte) in bytes.iter().enumerate() {
        words[place / 8] |= u64::from(byte) << (place % 8 * 8);
    }
    words
}

/// The hex digits of bytes, a bit for each of so many rows.
fn digits_of(bytes: &[u8], rows: usize) -> String {
    let digit = |place: usize| char::from(b"0123456789abcdef"[usize::from(bytes[place / 2] >> (place % 2 * 4) & 15)]);
    (0..rows.div_ceil(4)).rev().map(digit).collect()
}

impl FromStr for Table {
    type Err = Refusal;

    /// A table by hex digits as [`Table::from_hex`] takes them, with or without `0x`. Their number gives the inputs: 1, 2, 4 .. 64 digits
    /// are a table of 2, 3, 4 .. 8 inputs. After `@` may follow as many digits, with or without `0x`, of the rows cared for.
    ///
    /// # Errors
    ///
    /// [`Refusal::Digits`] for another number of digits, or [`Refusal::Inputs`] if a table of more inputs would have it; then
    /// [`Refusal::Digit`] for a character that is none; [`Refusal::Care`] for a value bit on a row that is not cared for.
    fn from_str(text: &str) -> Result<Table, Refusal> {
        if let Some((values, cares)) = text.split_once('@') {
            let values: Table = values.parse()?;
            let cares = Table::from_hex(values.inputs(), without_prefix(cares))?;
            return Table::from_cares(values.inputs(), &values.words(), &cares.words());
        }
        let digits = without_prefix(text);
        if !digits.len().is_power_of_two() {
            return Err(Refusal::Digits);
        }
        Table::from_hex(2 + digits.len().trailing_zeros(), digits)
    }
}

impl fmt::Display for Table {
    fn fmt(&self, f: &mut fmt::Formatter) -> fmt::Result {
        let rows = 1 << self.inputs();
        let values = digits_of(self.bytes(), rows);
        match self.0.care_bytes() {
            Some(cares) => f.pad(&format!("{values}@{}", digits_of(cares, rows))),
            None => f.pad(&values),
        }
    }
}

impl fmt::Debug for Table {
    fn fmt(&self, f: &mut fmt::Formatter) -> fmt::Result {
        write!(f, "Table({})", self.described())
    }
}
