//! The page of heights: what `heights_main` has stored, which is the table of docs/HEIGHTS.md.

use crate::difference::Difference;
use reference::table::true_inputs;

/// The stored run: two lines of head, then lines with the number of a row and the heights of sixteen rows from it on.
const STORED: &str = include_str!("../../../crates/heights_main/stdout");

/// Compares each entry with the reference's count, and counts the entries.
pub fn compare_heights() -> Result<usize, Difference> {
    let mut compared = 0;
    for line in STORED.lines().skip(2) {
        let numbers: Vec<usize> = line.trim_matches('|').split('|').filter_map(|cell| cell.trim().parse().ok()).collect();
        let expected: Vec<usize> = [compared].into_iter().chain((compared..compared + 16).map(|row| true_inputs(row, 8))).collect();
        if numbers != expected {
            return Err(Difference::of_heights(line, &expected));
        }
        compared += 16;
    }
    Ok(compared)
}
