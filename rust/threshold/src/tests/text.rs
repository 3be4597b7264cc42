//! Tables, gates, witnesses and verdicts as text.

use super::{some_tables, table, SLOW};
use crate::{Gate, Refusal, SavedJob, Table, Verdict, Witness};

/// Inputs, digits, the bytes in order, and the verdict in words.
const VERDICTS: [(u32, &str, &[u8], &str); 14] = [
    (0, "1", &[0x01], "gate 0 >= -1"),
    (0, "0", &[0x00], "gate 0 >= 1"),
    (1, "3", &[0x03], "gate 0 >= -1"),
    (1, "2", &[0x02], "gate 2 x1 >= 1"),
    (1, "1", &[0x01], "gate -2 x1 >= -1"),
    (2, "8", &[0x08], "gate 2 x1 + 3 x2 >= 4"),
    (2, "6", &[0x06], "no gate 1 2 = 0 3"),
    (3, "e8", &[0xe8], "gate 2 x1 + 3 x2 + 3 x3 >= 4"),
    (4, "f888", &[0x88, 0xf8], "no gate 3 12 = 6 9"),
    (4, "8000", &[0x00, 0x80], "gate 2 x1 + 2 x2 + 3 x3 + 5 x4 >= 11"),
    (4, "07ff", &[0xff, 0x07], "gate -2 x1 - 3 x2 - 5 x3 - 10 x4 >= -14"),
    (5, "f8e8a8a0", &[0xa0, 0xa8, 0xe8, 0xf8], "no gate 11 28 = 14 25"),
    (6, "eae8e8a8eae8e880", &[0x80, 0xe8, 0xe8, 0xea, 0xa8, 0xe8, 0xe8, 0xea], "gate 22 x1 + 16 x2 + 16 x3 + 10 x4 + 10 x5 + 4 x6 >= 41"),
    (8, "fffffaaae8a8a0a0eaeaa8a0a0a08000a8a0808080800000a0a0000000000000", &SLOW, "open at K 100000"),
];

#[test]
fn verdicts_are_in_words() {
    for (inputs, digits, bytes, words) in VERDICTS {
        let table = Table::from_hex(inputs, digits).unwrap();
        assert_eq!((table.inputs(), table.bytes()), (inputs, bytes));
        assert_eq!((table.to_string(), table.decide().verdict.to_string()), (digits.to_string(), words.to_string()));
    }
}

#[test]
fn what_is_shown_is_read_back() {
    for table in some_tables() {
        let (inputs, digits) = (table.inputs(), table.to_string());
        for text in [&digits, &digits.to_uppercase()] {
            assert_eq!(Table::from_hex(inputs, text).as_ref(), Ok(&table));
        }
        if inputs >= 2 {
            for text in [digits.clone(), format!("0x{digits}"), format!("0X{digits}")] {
                assert_eq!(text.parse().as_ref(), Ok(&table));
            }
        }
    }
}

#[test]
fn one_digit_is_read_as_two_inputs() {
    assert_eq!("2".parse(), Table::new(2, &[0x02]));
    assert_eq!(Table::from_hex(1, "2"), Table::new(1, &[0x02]));
    assert_eq!(Table::from_hex(1, "e"), Table::new(1, &[0x02]));
    assert_eq!(Table::from_hex(0, "F"), Table::new(0, &[0x01]));
}

#[test]
fn text_that_is_no_table_is_refused() {
    for text in ["", "0x", "e8e", "e8 ", "0xe8e", "0xe8 "] {
        assert_eq!(text.parse::<Table>(), Err(Refusal::Digits), "{text:?}");
    }
    for text in ["g", "+8", "-8", " 8", "é", "0x 8", "0x0x", "e8g8", "8000000x"] {
        assert_eq!(text.parse::<Table>(), Err(Refusal::Digit), "{text:?}");
    }
    assert_eq!("0".repeat(128).parse::<Table>(), Err(Refusal::Inputs));
    assert_eq!(Table::from_hex(9, ""), Err(Refusal::Inputs));
    assert_eq!(Table::from_hex(u32::MAX, "e8"), Err(Refusal::Inputs));
    assert_eq!(Table::from_hex(3, "0xe8"), Err(Refusal::Digits));
    assert_eq!(Table::from_hex(1, ""), Err(Refusal::Digits));
    assert_eq!(Table::from_hex(1, "x"), Err(Refusal::Digit));
}

#[test]
fn gates_are_inequalities() {
    let cases: [([i32; 4], i32, &str); 6] = [
        ([1, 1, 1, 1], 4, "x1 + x2 + x3 + x4 >= 4"),
        ([-1, -1, 1, -3], 0, "-x1 - x2 + x3 - 3 x4 >= 0"),
        ([0, 0, 2, 0], -1, "2 x3 >= -1"),
        ([0, -2, 0, 1], 1, "-2 x2 + x4 >= 1"),
        ([0, 0, 0, 0], 7, "0 >= 7"),
        ([-1_000_000, 0, 0, 1_000_000], -1_000_000, "-1000000 x1 + 1000000 x4 >= -1000000"),
    ];
    for (weights, threshold, text) in cases {
        assert_eq!(Gate::new(&table("8000"), &weights, threshold).unwrap().to_string(), text);
    }
}

#[test]
fn witnesses_are_two_sides() {
    let cases: [(&[(u32, u32)], &str); 5] = [
        (&[(3, 1), (5, 1), (10, 1), (12, 1)], "3 12 = 5 10"),
        (&[(10, 3), (3, 2), (0, 1)], "2*3 = 0 3*10"),
        (&[(15, 1_000_000)], "1000000*15 ="),
        (&[(9, 1), (6, 1)], "= 6 9"),
        (&[(12, 1), (3, 1)], "3 12 ="),
    ];
    for (rows, text) in cases {
        assert_eq!(Witness::new(&table("f888"), rows).unwrap().to_string(), text);
    }
}

#[test]
fn what_is_in_it_is_shown() {
    let (both, one) = (table("8"), Table::from_hex(1, "2").unwrap());
    assert_eq!(format!("{both:?} {one:?} {:?}", table("e8")), "Table(8, 2 inputs) Table(2, 1 input) Table(e8, 3 inputs)");
    let Verdict::Gate(gate) = both.decide().verdict else { panic!() };
    assert_eq!(format!("{gate:?}"), "Gate(8, 2 inputs: 2 x1 + 3 x2 >= 4)");
    assert_eq!(format!("{:?}", gate.weights()), "[2, 3]");
    let Verdict::Witness(witness) = table("f888").decide().verdict else { panic!() };
    assert_eq!(format!("{witness:?}"), "Witness(f888, 4 inputs: 3 12 = 6 9)");
    assert_eq!(format!("{:?}", witness.rows()), "[(3, 1), (6, 1), (9, 1), (12, 1)]");
    let job = SavedJob::fresh(&both).unwrap();
    assert_eq!(format!("{job} {job:?}"), "open at K 0 SavedJob(8, 2 inputs: open at K 0)");
    assert_eq!(format!("{:>4}|{:<4}|", table("e8"), table("e8")), "  e8|e8  |");
}
