//! Gates and witnesses from anyone, and their numbers.

use super::table;
use crate::{Gate, Refusal, Verdict, Witness};

/// Digits, weights and threshold of papers' gates.
const GATES: [(&str, &[i32], i32); 7] = [
    ("8", &[1, 1], 2),
    ("d5", &[-2, 1, 1], 0),
    ("a888", &[3, 2, 1, 1], 5),
    ("17171757", &[-4, -3, -3, -1, -1], -6),
    ("eee8e888e8a8e888", &[9, 8, 5, 4, 3, 2], 17),
    ("feeeeee8fee8e888fee8eee8fee8e880", &[8, 8, 6, 6, 5, 3, 1], 17),
    ("0000000000000000000000000000000000000000000000000000000000000001", &[-1; 8], 0),
];

#[test]
fn papers_gates_realise_their_tables() {
    for (digits, weights, threshold) in GATES {
        let table = table(digits);
        let gate = Gate::new(&table, weights, threshold).unwrap();
        assert_eq!((&gate.weights()[..], gate.threshold(), gate.table()), (weights, threshold, table.clone()));
        assert!(gate.realises());
        assert_eq!(Gate::from_record(gate.record().unwrap()), Ok(gate));
        assert!(!Gate::new(&table, weights, threshold + 1).unwrap().realises());
        let Verdict::Gate(found) = table.decide().verdict else { panic!("{digits}: no gate") };
        assert_eq!(Gate::new(&table, &found.weights(), found.threshold()), Ok(found));
    }
}

#[test]
fn weights_are_a_slice_and_numbers() {
    let gate = Gate::new(&table("e8"), &[1, -2, 3], 2).unwrap();
    let weights = gate.weights();
    assert_eq!(weights, [1, -2, 3]);
    assert_eq!(weights, [1, -2, 3][..]);
    assert_ne!(weights, [1, -2]);
    assert_eq!((weights.len(), weights[1], weights.iter().sum()), (3, -2, 2));
    assert!(weights.into_iter().eq([1, -2, 3]) && (&weights).into_iter().eq(&[1, -2, 3]));
    assert_eq!(weights, Gate::new(&table("80"), &[1, -2, 3], 0).unwrap().weights());
}

#[test]
fn witnesses_balance_or_do_not() {
    let pairs = table("f888");
    let rows = [(3, 1), (5, 1), (10, 1), (12, 1)];
    let witness = Witness::new(&pairs, &rows).unwrap();
    assert!(witness.balances() && witness.rows().eq(rows));
    assert_eq!(witness.table(), pairs);
    assert_eq!(Witness::from_record(witness.record().unwrap()).as_ref(), Ok(&witness));
    assert_eq!(Witness::new(&pairs, &[(12, 1), (5, 1), (10, 1), (3, 1)]), Ok(witness));
    assert!(Witness::new(&pairs, &[(3, 2), (12, 2), (5, 1), (6, 1), (9, 1), (10, 1)]).unwrap().balances());
    assert!(!Witness::new(&pairs, &[(3, 2), (5, 1), (10, 1), (12, 1)]).unwrap().balances());
    assert!(!Witness::new(&pairs, &[(3, 1), (5, 1)]).unwrap().balances());
}

#[test]
fn rows_are_gone_through() {
    let witness = Witness::new(&table("f888"), &[(15, 1_000_000), (0, 7), (4, 1)]).unwrap();
    let mut rows = witness.rows();
    assert_eq!((rows.next(), rows.size_hint()), (Some((0, 7)), (0, Some(15))));
    assert_eq!(format!("{rows:?}"), "[(4, 1), (15, 1000000)]");
    assert!(rows.clone().eq([(4, 1), (15, 1_000_000)]));
    assert_eq!((rows.nth(1), rows.next(), rows.next()), (Some((15, 1_000_000)), None, None));
    let all: Vec<(u32, u32)> = (0..256).map(|row| (row, row + 1)).collect();
    assert!(Witness::new(&table(&"f888".repeat(16)), &all).unwrap().rows().eq(all));
}

#[test]
fn gates_are_refused_by_number() {
    let table = table("f888");
    for weights in [&[][..], &[1; 3], &[1; 5], &[1; 9], &[i32::MAX; 3]] {
        assert_eq!(Gate::new(&table, weights, 0), Err(Refusal::Numbers));
    }
    for beyond in [1_000_001, -1_000_001, i32::MAX, i32::MIN] {
        assert_eq!(Gate::new(&table, &[0, beyond, 0, 0], 0), Err(Refusal::Gate));
        assert_eq!(Gate::new(&table, &[0; 4], beyond), Err(Refusal::Gate));
    }
}

#[test]
fn witnesses_are_refused_by_number() {
    let table = table("f888");
    for rows in [&[][..], &[(3, 0)], &[(3, 1), (5, 0)], &[(3, 1_000_001)], &[(0, u32::MAX)]] {
        assert_eq!(Witness::new(&table, rows), Err(Refusal::RowList));
    }
    for rows in [&[(16, 1)][..], &[(u32::MAX, 1)], &[(5, 1), (5, 1)], &[(3, 1), (5, 1), (3, 2)]] {
        assert_eq!(Witness::new(&table, rows), Err(Refusal::RowList));
    }
}
