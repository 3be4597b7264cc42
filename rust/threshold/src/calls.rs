//! The library's functions on slices, as `include/threshold.h` describes them.
//!
//! A function with `out` writes its answer to the start of the buffer and gives the length. It changes nothing past that, and nothing at
//! all where it refuses. [`ROOM`](crate::ROOM) bytes are enough for every answer. A function with `made` sets it to the corrections made in
//! the call, and keeps it where it refuses.
//!
//! # Errors
//!
//! A function on a record gives what reading it does, numbers 1 to 9 and 16; then [`Refusal::OtherKind`] for a record of a kind that it
//! does not take; then its own, which it names.
//!
//! # Panics
//!
//! If what is linked gives a number that the library cannot give.

use crate::declared as c;
use crate::Refusal;

/// What a call says, 0 or above, or its refusal.
fn answer(code: i64) -> Result<usize, Refusal> {
    usize::try_from(code).map_err(|_| {
        let number = u8::try_from(code.unsigned_abs()).ok();
        number.and_then(Refusal::from_number).unwrap_or_else(|| panic!("the library gave {code}, which is no refusal"))
    })
}

/// A call's answer as a smaller number.
fn number<N: TryFrom<usize>>(code: i64) -> Result<N, Refusal> {
    answer(code).map(|answer| N::try_from(answer).unwrap_or_else(|_| panic!("the library gave {answer}, which is past the range")))
}

/// A call's 1 or 0 as true or false.
fn truth(code: i64) -> Result<bool, Refusal> {
    answer(code).map(|answer| match answer {
        0 => false,
        1 => true,
        other => panic!("the library gave {other} for yes or no"),
    })
}

// Of every call below the library asks that a pointer with a length is valid for it and one without is valid, and that what it writes
// overlaps nothing else that is lent. A slice and a reference see to both.

/// Writes the table (kind 1) that hex digits stand for, the digit of the highest rows first: 2^n / 4 of them, one where n is below 2.
///
/// # Errors
///
/// [`Refusal::Inputs`], [`Refusal::Digits`], [`Refusal::Digit`], [`Refusal::Room`].
pub fn from_hex(inputs: u32, digits: &[u8], out: &mut [u8]) -> Result<usize, Refusal> {
    // SAFETY: slices are valid for their lengths, and `out` overlaps nothing.
    answer(unsafe { c::threshold_from_hex(inputs, digits.as_ptr().cast(), digits.len(), out.as_mut_ptr(), out.len()) })
}

/// Writes the table (kind 1) that words of 64 rows stand for: row r is bit r mod 64 of word r div 64. What is past its rows does not count.
///
/// # Errors
///
/// [`Refusal::Inputs`], [`Refusal::Words`], [`Refusal::Room`].
pub fn from_words(inputs: u32, words: &[u64], out: &mut [u8]) -> Result<usize, Refusal> {
    // SAFETY: slices are valid for their lengths, and `out` overlaps nothing.
    answer(unsafe { c::threshold_from_words(inputs, words.as_ptr(), words.len(), out.as_mut_ptr(), out.len()) })
}

/// Writes the table that words of 64 rows stand for, with the rows cared for that words laid out alike say: kind 1 if every row is cared
/// for, else kind 5. What is past its rows does not count.
///
/// # Errors
///
/// [`Refusal::Inputs`], [`Refusal::Words`] for too few words of either, [`Refusal::Care`] for a value bit on a row that is not cared for,
/// [`Refusal::Room`].
pub fn from_cares(inputs: u32, words: &[u64], cares: &[u64], out: &mut [u8]) -> Result<usize, Refusal> {
    let (count, care_count, room) = (words.len(), cares.len(), out.len());
    // SAFETY: slices are valid for their lengths, and `out` overlaps nothing.
    answer(unsafe { c::threshold_from_cares(inputs, words.as_ptr(), count, cares.as_ptr(), care_count, out.as_mut_ptr(), room) })
}

/// Decides a table (kind 1 or 5) within 100,000 corrections: writes a record of kind 2, 3 or 4, or of kind 6 for the open job of a table of
/// kind 5.
///
/// # Errors
///
/// Its own: [`Refusal::Care`] where the job of a table of kind 5 has ended, since no record carries its gate or its witness: [`find_gate`]
/// with the same record and the same budget, here 100,000, gives the gate, and on [`Refusal::NotFound`] [`find_witness`] the witness; then
/// [`Refusal::Room`].
pub fn decide(record: &[u8], out: &mut [u8], made: &mut u32) -> Result<usize, Refusal> {
    // SAFETY: slices are valid for their lengths, `made` is valid, and what is mutable overlaps nothing.
    answer(unsafe { c::threshold_decide(record.as_ptr(), record.len(), out.as_mut_ptr(), out.len(), made) })
}

/// Carries an open job (kind 4 or 6) on by at most `budget` corrections: writes what [`decide`] does.
///
/// # Errors
///
/// Its own: [`Refusal::Budget`], [`Refusal::Cap`], [`Refusal::Care`] as [`decide`], [`Refusal::Room`].
pub fn carry_on(record: &[u8], budget: u32, out: &mut [u8], made: &mut u32) -> Result<usize, Refusal> {
    // SAFETY: slices are valid for their lengths, `made` is valid, and what is mutable overlaps nothing.
    answer(unsafe { c::threshold_carry_on(record.as_ptr(), record.len(), budget, out.as_mut_ptr(), out.len(), made) })
}

/// Writes the fresh job (kind 4 or 6) of a table (kind 1 or 5), or, if an input is binate, the table with its witness (kind 3).
///
/// # Errors
///
/// Its own: [`Refusal::Care`] where the fresh job of a table of kind 5 has ended, [`Refusal::Room`].
pub fn fresh(record: &[u8], out: &mut [u8]) -> Result<usize, Refusal> {
    // SAFETY: slices are valid for their lengths, and `out` overlaps nothing.
    answer(unsafe { c::threshold_fresh(record.as_ptr(), record.len(), out.as_mut_ptr(), out.len()) })
}

/// The corrections made so far, K, of an open job (kind 4 or 6).
///
/// # Errors
///
/// None of its own.
pub fn corrections(record: &[u8]) -> Result<u32, Refusal> {
    // SAFETY: a slice is valid for its length.
    number(unsafe { c::threshold_corrections(record.as_ptr(), record.len()) })
}

/// Carries the fresh job of a table (kind 1 or 5), or an open job (kind 4 or 6), on by at most `budget` corrections. If it has found a
/// gate, writes its weights from input 1 on, sets `threshold` to T, and gives the number of weights; room for 8 is enough.
///
/// # Errors
///
/// Its own: [`Refusal::Budget`], [`Refusal::Cap`], [`Refusal::NotFound`], [`Refusal::Room`].
pub fn find_gate(record: &[u8], budget: u32, weights: &mut [i32], threshold: &mut i32, made: &mut u32) -> Result<usize, Refusal> {
    let (length, room) = (record.len(), weights.len());
    // SAFETY: slices are valid for their lengths, `threshold` and `made` are valid, and what is mutable overlaps nothing.
    answer(unsafe { c::threshold_find_gate(record.as_ptr(), length, budget, weights.as_mut_ptr(), room, threshold, made) })
}

/// The same for a witness: if the job has ended with one, writes the count of each row, from row 0 on, and gives the number of rows; room
/// for 256 is enough.
///
/// # Errors
///
/// Its own: [`Refusal::Budget`], [`Refusal::Cap`], [`Refusal::NotFound`], [`Refusal::Room`].
pub fn find_witness(record: &[u8], budget: u32, counts: &mut [u32], made: &mut u32) -> Result<usize, Refusal> {
    // SAFETY: slices are valid for their lengths, `made` is valid, and what is mutable overlaps nothing.
    answer(unsafe { c::threshold_find_witness(record.as_ptr(), record.len(), budget, counts.as_mut_ptr(), counts.len(), made) })
}

/// Whether the gate (kind 2) realises its table, or the witness (kind 3) balances.
///
/// # Errors
///
/// None of its own.
pub fn check(record: &[u8]) -> Result<bool, Refusal> {
    // SAFETY: a slice is valid for its length.
    truth(unsafe { c::threshold_check(record.as_ptr(), record.len()) })
}

/// Whether the gate of these numbers agrees with a table (kind 1 or 5) on every row that is cared for.
///
/// # Errors
///
/// Its own: [`Refusal::Numbers`], [`Refusal::Gate`].
pub fn check_gate(record: &[u8], weights: &[i32], threshold: i32) -> Result<bool, Refusal> {
    // SAFETY: slices are valid for their lengths.
    truth(unsafe { c::threshold_check_gate(record.as_ptr(), record.len(), weights.as_ptr(), weights.len(), threshold) })
}

/// Whether the witness of these counts balances against a table (kind 1 or 5).
///
/// # Errors
///
/// Its own: [`Refusal::Numbers`], [`Refusal::RowList`].
pub fn check_witness(record: &[u8], counts: &[u32]) -> Result<bool, Refusal> {
    // SAFETY: slices are valid for their lengths.
    truth(unsafe { c::threshold_check_witness(record.as_ptr(), record.len(), counts.as_ptr(), counts.len()) })
}

/// Writes the weights of a table's gate (kind 2), from input 1 on, sets `threshold` to T, and gives the number of weights; room for 8 is
/// enough.
///
/// # Errors
///
/// Its own: [`Refusal::Room`].
pub fn gate(record: &[u8], weights: &mut [i32], threshold: &mut i32) -> Result<usize, Refusal> {
    // SAFETY: slices are valid for their lengths, `threshold` is valid, and what is mutable overlaps nothing.
    answer(unsafe { c::threshold_gate(record.as_ptr(), record.len(), weights.as_mut_ptr(), weights.len(), threshold) })
}

/// Writes the count of each row of a table's witness (kind 3), from row 0 on, and gives the number of rows; room for 256 is enough.
///
/// # Errors
///
/// Its own: [`Refusal::Room`].
pub fn witness(record: &[u8], counts: &mut [u32]) -> Result<usize, Refusal> {
    // SAFETY: slices are valid for their lengths, and `counts` overlaps nothing.
    answer(unsafe { c::threshold_witness(record.as_ptr(), record.len(), counts.as_mut_ptr(), counts.len()) })
}

/// Writes a table (kind 1) with a gate for it from anyone (kind 2): a weight for each input, and T.
///
/// # Errors
///
/// Its own: [`Refusal::Numbers`], [`Refusal::Care`] for a table of kind 5, [`Refusal::Gate`], [`Refusal::Room`].
pub fn from_gate(record: &[u8], weights: &[i32], threshold: i32, out: &mut [u8]) -> Result<usize, Refusal> {
    let (length, count, room) = (record.len(), weights.len(), out.len());
    // SAFETY: slices are valid for their lengths, and `out` overlaps nothing.
    answer(unsafe { c::threshold_from_gate(record.as_ptr(), length, weights.as_ptr(), count, threshold, out.as_mut_ptr(), room) })
}

/// Writes a table (kind 1) with a witness against it from anyone (kind 3): a count for each row.
///
/// # Errors
///
/// Its own: [`Refusal::Numbers`], [`Refusal::Care`] for a table of kind 5, [`Refusal::RowList`], [`Refusal::Room`].
pub fn from_witness(record: &[u8], counts: &[u32], out: &mut [u8]) -> Result<usize, Refusal> {
    let (length, count, room) = (record.len(), counts.len(), out.len());
    // SAFETY: slices are valid for their lengths, and `out` overlaps nothing.
    answer(unsafe { c::threshold_from_witness(record.as_ptr(), length, counts.as_ptr(), count, out.as_mut_ptr(), room) })
}

/// The kind, 1 to 6, of a record that is whole and right.
///
/// # Errors
///
/// What reading gives.
pub fn kind(record: &[u8]) -> Result<u8, Refusal> {
    // SAFETY: a slice is valid for its length.
    number(unsafe { c::threshold_kind(record.as_ptr(), record.len()) })
}

/// Writes the kind of each of eight inputs of a table (kind 1 or 5), a byte each.
///
/// # Errors
///
/// Its own: [`Refusal::Room`].
pub fn kinds(record: &[u8], out: &mut [u8]) -> Result<usize, Refusal> {
    // SAFETY: slices are valid for their lengths, and `out` overlaps nothing.
    answer(unsafe { c::threshold_kinds(record.as_ptr(), record.len(), out.as_mut_ptr(), out.len()) })
}

/// Writes Chow's parameter of each of eight inputs of a table (kind 1 or 5), two bytes each.
///
/// # Errors
///
/// Its own: [`Refusal::Room`].
pub fn chow(record: &[u8], out: &mut [u8]) -> Result<usize, Refusal> {
    // SAFETY: slices are valid for their lengths, and `out` overlaps nothing.
    answer(unsafe { c::threshold_chow(record.as_ptr(), record.len(), out.as_mut_ptr(), out.len()) })
}

/// The value of a table (kind 1 or 5) or of a table's gate (kind 2) on a row; a table's is false where the row is not cared for.
///
/// # Errors
///
/// Its own: [`Refusal::Row`].
pub fn value(record: &[u8], row: u32) -> Result<bool, Refusal> {
    // SAFETY: a slice is valid for its length.
    truth(unsafe { c::threshold_value(record.as_ptr(), record.len(), row) })
}
