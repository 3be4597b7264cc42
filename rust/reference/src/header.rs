//! The calls of the reference itself by the text of `include/threshold.h`: what they take and write, and their refusals in order.

use crate::calls;
use crate::refusal::Refusal;

/// The table that is true where both inputs are, and its gate.
const BOTH: [u8; 3] = [1, 2, 0x08];
const GATE_OF_BOTH: [u8; 6] = [2, 2, 0x08, 4, 6, 8];
/// The table that is true where one of two inputs is, and its witness.
const ONE: [u8; 3] = [1, 2, 0x06];
const WITNESS_OF_ONE: [u8; 12] = [3, 2, 0x06, 4, 0, 1, 1, 1, 2, 1, 3, 1];

fn numbers<T>(answer: Result<T, Refusal>) -> Result<T, u8> {
    answer.map_err(|refusal| refusal as u8)
}

/// The digit of the highest rows comes first, and bits past the rows do not count.
#[test]
fn tables_from_hex_digits() {
    let cases: [(u32, &str, &[u8]); 8] = [
        (0, "1", &[1, 0, 0x01]),
        (0, "E", &[1, 0, 0x00]),
        (1, "e", &[1, 1, 0x02]),
        (2, "8", &BOTH),
        (3, "e8", &[1, 3, 0xE8]),
        (4, "f8a1", &[1, 4, 0xA1, 0xF8]),
        (4, "F8A1", &[1, 4, 0xA1, 0xF8]),
        (5, "01234567", &[1, 5, 0x67, 0x45, 0x23, 0x01]),
    ];
    for (inputs, digits, record) in cases {
        assert_eq!(calls::from_hex(inputs, digits.as_bytes(), record.len()).as_deref(), Ok(record), "{digits}");
    }
    let refused: [(u32, &str, usize, u8); 8] = [
        (9, "", 0, 2),
        (3, "x", 0, 101),
        (3, "0xe8", 4, 101),
        (2, "", 0, 101),
        (3, "0x", 0, 102),
        (3, "g8", 3, 102),
        (3, "e ", 3, 102),
        (3, "e8", 2, 12),
    ];
    for (inputs, digits, room, number) in refused {
        assert_eq!(numbers(calls::from_hex(inputs, digits.as_bytes(), room)), Err(number), "{digits}");
    }
}

/// The lowest bit of the first word is row 0's, and neither bits past the rows nor further words count.
#[test]
fn tables_from_words() {
    let cases: [(u32, &[u64], &[u8]); 5] = [
        (0, &[u64::MAX], &[1, 0, 0x01]),
        (2, &[0x8888_8888_8888_8888, 7], &BOTH),
        (3, &[0xFFFF_FFFF_FFFF_FF01], &[1, 3, 0x01]),
        (6, &[0x0123_4567_89AB_CDEF], &[1, 6, 0xEF, 0xCD, 0xAB, 0x89, 0x67, 0x45, 0x23, 0x01]),
        (7, &[1, 1 << 63], &[1, 7, 1, 0, 0, 0, 0, 0, 0, 0, 0, 0, 0, 0, 0, 0, 0, 0x80]),
    ];
    for (inputs, words, record) in cases {
        assert_eq!(calls::from_words(inputs, words, record.len()).as_deref(), Ok(record), "{words:x?}");
    }
    for (inputs, words, room, number) in [(9, &[][..], 0, 2), (0, &[], 0, 103), (8, &[0; 3], 0, 103), (8, &[0; 4], 33, 12)] {
        assert_eq!(numbers(calls::from_words(inputs, words, room)), Err(number), "{inputs}");
    }
}

/// A fresh job is open, or has ended with a witness where an input is binate.
#[test]
fn fresh_jobs_and_their_corrections() {
    let open = calls::fresh(&BOTH, 11).unwrap();
    assert_eq!(open, [4, 2, 0x08, 0, 0, 0, 0, 0, 0, 0, 0]);
    assert_eq!(calls::corrections(&open), Ok(0));
    assert_eq!(calls::fresh(&ONE, 12).as_deref(), Ok(&WITNESS_OF_ONE[..]));
    assert_eq!(calls::corrections(&calls::carry_on(&open, 7, 100).unwrap().bytes), Ok(7));
    assert_eq!([calls::fresh(&BOTH, 10), calls::fresh(&ONE, 11)].map(numbers), [Err(12), Err(12)]);
    assert_eq!([calls::fresh(&open, 0), calls::fresh(&[9], 0)].map(numbers), [Err(100), Err(5)]);
    assert_eq!([calls::corrections(&BOTH), calls::corrections(&open[..9])].map(numbers), [Err(100), Err(1)]);
}

/// The numbers of a gate go out and come back; 104 comes before 7, and 7 before 12.
#[test]
fn gates_in_numbers() {
    assert_eq!(calls::gate(&GATE_OF_BOTH, 2), Ok((vec![2, 3], 4)));
    assert_eq!(calls::from_gate(&BOTH, &[2, 3], 4, 6).as_deref(), Ok(&GATE_OF_BOTH[..]));
    let limits = [2, 2, 0x08, 0x80, 0x89, 0x7A, 0xFF, 0x88, 0x7A, 1];
    assert_eq!(calls::from_gate(&BOTH, &[1_000_000, -1_000_000], -1, 10).as_deref(), Ok(&limits[..]));
    assert_eq!([calls::gate(&GATE_OF_BOTH, 1), calls::gate(&BOTH, 0)].map(numbers), [Err(12), Err(100)]);
    let refused: [(&[u8], &[i32], i32, u8); 6] = [
        (&BOTH[..2], &[], 0, 1),
        (&GATE_OF_BOTH, &[], 0, 100),
        (&BOTH, &[i32::MIN], 0, 104),
        (&BOTH, &[0, i32::MIN], 0, 7),
        (&BOTH, &[0, 0], 1_000_001, 7),
        (&BOTH, &[0, 0], 1, 12),
    ];
    for (record, weights, threshold, number) in refused {
        assert_eq!(numbers(calls::from_gate(record, weights, threshold, 5)), Err(number), "{weights:?}");
    }
}

/// The counts of a witness go out and come back; 104 comes before 8, and 8 before 12.
#[test]
fn witnesses_in_numbers() {
    assert_eq!(calls::witness(&WITNESS_OF_ONE, 4), Ok(vec![1; 4]));
    assert_eq!(calls::from_witness(&ONE, &[1; 4], 12).as_deref(), Ok(&WITNESS_OF_ONE[..]));
    assert_eq!(calls::from_witness(&ONE, &[0, 0, 1_000_000, 0], 8).as_deref(), Ok(&[3, 2, 0x06, 1, 2, 0xC0, 0x84, 0x3D][..]));
    assert_eq!([calls::witness(&WITNESS_OF_ONE, 3), calls::witness(&ONE, 0)].map(numbers), [Err(12), Err(100)]);
    let refused: [(&[u8], &[u32], u8); 7] = [
        (&[1, 9], &[], 2),
        (&WITNESS_OF_ONE, &[], 100),
        (&ONE, &[u32::MAX; 3], 104),
        (&ONE, &[0; 5], 104),
        (&ONE, &[0; 4], 8),
        (&ONE, &[1, 1, 1, 1_000_001], 8),
        (&ONE, &[1; 4], 12),
    ];
    for (record, counts, number) in refused {
        assert_eq!(numbers(calls::from_witness(record, counts, 11)), Err(number), "{counts:?}");
    }
}
