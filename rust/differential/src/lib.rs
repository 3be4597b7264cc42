//! Compares the proved library with the reference: what each call says, and each byte and number that is lent to it, before and after; the
//! report, byte by byte; and the page of heights.

pub mod call;
pub mod cares;
pub mod compare;
pub mod damage;
pub mod difference;
pub mod digits;
pub mod gates;
pub mod heights;
pub mod lent;
pub mod lists;
pub mod numbers;
pub mod partial;
pub mod random;
pub mod read;
pub mod records;
pub mod reports;
pub mod tables;
pub mod tally;
pub mod verdicts;
pub mod witnesses;
pub mod words;
