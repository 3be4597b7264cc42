//! The wrapper on the cases of document 01, on papers' functions, and beside the header.

mod cares;
mod header;
mod jobs;
mod proposals;
mod refusals;
mod tables;
mod text;

use crate::Table;

/// A table that is open after 100,000 corrections and has a witness after 131,076.
const SLOW: [u8; 32] = [
    0x00, 0x00, 0x00, 0x00, 0x00, 0x00, 0xa0, 0xa0, 0x00, 0x00, 0x80, 0x80, 0x80, 0x80, 0xa0, 0xa8, 0x00, 0x80, 0xa0, 0xa0, 0xa0, 0xa8,
    0xea, 0xea, 0xa0, 0xa0, 0xa8, 0xe8, 0xaa, 0xfa, 0xff, 0xff,
];

/// The table of two inputs or more that hex digits stand for.
fn table(digits: &str) -> Table {
    digits.parse().unwrap()
}

/// Tables of each number of inputs, by the low bits of one number and the next for every eight rows.
fn some_tables() -> impl Iterator<Item = Table> {
    (0..=8).flat_map(|inputs| (0..256).map(move |bits| Table::from_fn(inputs, |row| (bits + row / 8) >> (row % 8) & 1 == 1).unwrap()))
}
