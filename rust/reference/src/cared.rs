//! Document 02, §3, of the reference itself: rows that are not cared for.

use crate::calls;
use crate::gate::Gate;
use crate::job::{Job, Stage, Vector};
use crate::record::Record;
use crate::refusal::Refusal;
use crate::report::report;
use crate::table::{Kind, Table};
use crate::witness::Witness;

/// Source document 002's g4: three inputs, row 3 not cared for.
const G4: [u8; 4] = [5, 3, 0xE0, 0xF7];
/// The exclusive or of two inputs with row 3 not cared for, which some gate carries; and no row of two inputs cared for.
const XOR_BUT_ONE: [u8; 4] = [5, 2, 0x06, 0x07];
const NONE: [u8; 4] = [5, 2, 0x00, 0x00];
/// The exclusive or of inputs 1 and 2 of three, where input 3 is false: its other rows are not cared for.
const XOR_OF_THREE: [u8; 4] = [5, 3, 0x06, 0x0F];

fn table(record: &[u8]) -> Table {
    match Record::read(record) {
        Ok(Record::Table(table)) => table,
        other => panic!("{other:?}"),
    }
}

fn numbers<T>(answer: Result<T, Refusal>) -> Result<T, u8> {
    answer.map_err(|refusal| refusal as u8)
}

/// Every table of n inputs, each row true, false or not cared for.
fn every_partial(n: usize) -> impl Iterator<Item = Table> {
    let rows = 1 << n;
    (0..3usize.pow(rows)).map(move |code| {
        let state = |row: u32| code / 3usize.pow(row) % 3;
        Table { n, values: (0..rows).map(|row| state(row) == 1).collect(), cares: (0..rows).map(|row| state(row) < 2).collect() }
    })
}

/// The values of every gate with weights up to 2, which have all threshold tables of three inputs among them.
fn every_gate(n: usize) -> Vec<Vec<bool>> {
    let mut tables = Vec::new();
    for code in 0..5usize.pow(n as u32) {
        let weights: Vec<i64> = (0..n as u32).map(|place| (code / 5usize.pow(place) % 5) as i64 - 2).collect();
        for threshold in -6..=7 {
            let gate = Gate { weights: weights.clone(), threshold };
            tables.push((0..1 << n).map(|row| gate.value(row)).collect());
        }
    }
    tables.sort();
    tables.dedup();
    tables
}

/// The machine finds a gate exactly where some gate agrees on the rows cared for, and what it shows is right.
#[test]
fn partial_tables_by_machine_and_by_all_gates() {
    for (n, gates, partial, fitting) in [(0, 2, 3, 3), (1, 4, 9, 9), (2, 14, 81, 79), (3, 104, 6_561, 5_249)] {
        let all = every_gate(n);
        assert_eq!(all.len(), gates);
        let (mut tables, mut fits) = (0, 0);
        for table in every_partial(n) {
            let some = all.iter().any(|values| table.cared_rows().all(|row| values[row] == table.values[row]));
            let job = Job::decided(table.clone());
            assert!(job.is_sound());
            assert_eq!(job.stage == Stage::Found, some, "{table:?}");
            assert!(job.gate().is_none_or(|gate| gate.realises(&table)));
            assert!(job.witness().is_none_or(|witness| witness.balances(&table)));
            tables += 1;
            fits += usize::from(some);
        }
        assert_eq!((tables, fits), (partial, fitting));
    }
}

#[test]
fn the_example_of_document_002() {
    assert_eq!(calls::check_gate(&G4, &[1, 1, 1], 2), Ok(true));
    assert_eq!(calls::check_gate(&[1, 3, 0xE0], &[1, 1, 1], 2), Ok(false));
    assert_eq!(calls::check_gate(&G4, &[1, 1, 1], 3), Ok(false));
}

#[test]
fn a_row_that_is_left_free_lets_a_gate_in() {
    let job = Job::decided(table(&XOR_BUT_ONE));
    assert_eq!((job.stage, job.gate()), (Stage::Found, Some(Gate { weights: vec![2, 2], threshold: 1 })));
    assert_eq!([1, 2].map(|input| job.table.kind(input)), [Kind::Rising; 2]);
    let binate = Job::decided(table(&XOR_OF_THREE));
    assert_eq!((binate.stage, binate.counts), (Stage::Binate, vec![1, 1, 1, 1, 0, 0, 0, 0]));
    assert_eq!(binate.table.kind(3), Kind::Idle);
}

#[test]
fn without_a_row_cared_for_the_fresh_job_is_found() {
    for n in 0..=8 {
        let rows = 1 << n;
        let job = Job::fresh(Table { n, values: vec![false; rows], cares: vec![false; rows] });
        assert_eq!((job.stage, job.k, job.gate()), (Stage::Found, 0, Some(Gate { weights: vec![0; n], threshold: 0 })));
        assert!(job.is_sound());
    }
    let found = calls::FoundGate { weights: vec![0, 0], threshold: 0, made: 0 };
    assert_eq!(calls::find_gate(&NONE, 1, 2), Ok(found));
}

/// A count on a row that is not cared for: a witness with it does not balance, and a job with it is not sound.
#[test]
fn counts_on_rows_that_are_not_cared_for() {
    let counts = vec![1, 1, 1, 1, 0, 0, 0, 1];
    assert!(!Witness { counts }.balances(&table(&XOR_OF_THREE)));
    assert_eq!(calls::check_witness(&XOR_OF_THREE, &[1, 1, 1, 1, 0, 0, 0, 0]), Ok(true));
    assert_eq!(calls::check_witness(&XOR_OF_THREE, &[1, 1, 1, 1, 0, 0, 0, 1]), Ok(false));
    assert_eq!(calls::check_witness(&XOR_OF_THREE, &[1, 1, 1, 1, 1, 1, 1, 1]), Ok(false));
    let zero = Vector::zero(2);
    // Row 3, which is false, corrected once since the mark at 2.
    let v = Vector { a: vec![-1, -1], b: 1 };
    let sound = |table: &[u8]| Job::open(self::table(table), 3, v.clone(), zero.clone(), vec![0, 0, 0, 1]).is_sound();
    assert!(sound(&[1, 2, 0x01]) && !sound(&[5, 2, 0x01, 0x07]));
}

#[test]
fn tables_from_words_and_cares() {
    assert_eq!(calls::from_cares(3, &[0xE0], &[0xF7], 4).as_deref(), Ok(&G4[..]));
    assert_eq!(calls::from_cares(3, &[0xE8], &[0xFF], 3).as_deref(), Ok(&[1, 3, 0xE8][..]));
    assert_eq!(calls::from_cares(2, &[0xF6, 1], &[0x77, 0], 4).as_deref(), Ok(&XOR_BUT_ONE[..]));
    assert_eq!(calls::from_cares(7, &[0, 1 << 63], &[1, 1 << 63], 34).map(|record| (record[0], record[17], record[18])), Ok((5, 0x80, 1)));
    type Refused = (u32, &'static [u64], &'static [u64], usize, u8);
    let refused: [Refused; 8] = [
        (9, &[], &[], 0, 2),
        (7, &[1; 2], &[0], 0, 103),
        (7, &[1], &[0; 2], 0, 103),
        (0, &[1], &[], 0, 103),
        (3, &[0xE8], &[0xF7], 0, 16),
        (7, &[0, 1], &[u64::MAX, !1], 0, 16),
        (3, &[0xE0], &[0xF7], 3, 12),
        (3, &[0xE0], &[0xFF], 2, 12),
    ];
    for (inputs, words, cares, room, number) in refused {
        assert_eq!(numbers(calls::from_cares(inputs, words, cares, room)), Err(number), "{inputs} {words:x?} {cares:x?}");
    }
}

/// Bytes, and the number that reading them gives.
#[test]
fn refusals_in_their_order() {
    let cases: [(&[u8], u8); 21] = [
        (&[5], 1),
        (&[7], 5),
        (&[5, 9], 2),
        (&[5, 0x82, 0x00], 4),
        (&[5, 2], 1),
        (&[5, 2, 0x16], 3),
        (&[5, 2, 0x06], 1),
        (&[5, 2, 0x06, 0x17], 3),
        (&[5, 2, 0x06, 0x13], 3),
        (&[5, 2, 0x06, 0x03], 16),
        (&[5, 2, 0x06, 0x0F], 16),
        (&[5, 2, 0x06, 0x03, 0], 16),
        (&[5, 2, 0x06, 0x07, 0], 6),
        (&[6, 2, 0x06, 0x0F], 16),
        (&[6, 2, 0x06, 0x03, 0x82, 0x00], 16),
        (&[6, 2, 0x06, 0x07], 1),
        (&[6, 2, 0x06, 0x07, 0x82, 0x00], 4),
        (&[6, 2, 0x00, 0x00, 0, 0, 0, 0, 0, 0, 0, 0], 9),
        (&[6, 3, 0x06, 0x0F, 0, 0, 0, 0, 0, 0, 0, 0, 0, 0], 9),
        (&[6, 2, 0x01, 0x07, 3, 1, 1, 2, 0, 0, 0, 1, 3, 1, 0], 9),
        (&[6, 2, 0x06, 0x07, 0, 0, 0, 0, 0, 0, 0, 0, 0], 6),
    ];
    for (bytes, number) in cases {
        assert_eq!(numbers(Record::read(bytes)), Err(number), "{bytes:02x?}");
    }
    assert_eq!([&G4[..], &[6, 2, 0x06, 0x07, 0, 0, 0, 0, 0, 0, 0, 0]].map(calls::kind), [Ok(5), Ok(6)]);
}

/// An open job is of kind 6; one that has ended has no record, and its numbers are given.
#[test]
fn jobs_of_partial_tables() {
    let fresh = calls::fresh(&XOR_BUT_ONE, 100).unwrap();
    assert_eq!(fresh, [6, 2, 0x06, 0x07, 0, 0, 0, 0, 0, 0, 0, 0]);
    assert_eq!(calls::corrections(&fresh), Ok(0));
    let made = Job::decided(table(&XOR_BUT_ONE)).k as u32;
    let open = calls::carry_on(&fresh, made - 1, 100).unwrap();
    assert_eq!((open.bytes[0], open.made), (6, made - 1));
    assert_eq!(numbers(calls::carry_on(&open.bytes, 1, 0)), Err(16));
    assert_eq!(numbers(calls::carry_on(&open.bytes, 0, 0)), Err(10));
    assert_eq!([calls::decide(&XOR_BUT_ONE, 0), calls::decide(&NONE, 0)].map(numbers), [Err(16), Err(16)]);
    assert_eq!(
        [calls::fresh(&XOR_OF_THREE, 0), calls::fresh(&NONE, 0), calls::fresh(&XOR_BUT_ONE, 11)].map(numbers),
        [Err(16), Err(16), Err(12)]
    );
    let gate = |made| Ok(calls::FoundGate { weights: vec![2, 2], threshold: 1, made });
    assert_eq!([calls::find_gate(&XOR_BUT_ONE, 100, 2), calls::find_gate(&open.bytes, 1, 2)], [gate(made), gate(1)]);
    let witness = Ok(calls::FoundWitness { counts: vec![1, 1, 1, 1, 0, 0, 0, 0], made: 0 });
    assert_eq!(calls::find_witness(&XOR_OF_THREE, 1, 8), witness);
}

/// 10, 11, 105 and 12 in their order, and 104 before 16, 7 and 8.
#[test]
fn numbers_of_partial_tables_are_refused_in_order() {
    let gate = |record: &[u8], budget, room| numbers(calls::find_gate(record, budget, room)).map(|found| found.made);
    let witness = |record: &[u8], budget, room| numbers(calls::find_witness(record, budget, room)).map(|found| found.made);
    let late = [4, 0, 0, 0xBF, 0x84, 0x3D, 0x81, 0x96, 0x0F, 0xFF, 0x9E, 0x49, 1, 0, 0xBF, 0x84, 0x1D];
    assert_eq!([gate(&[5, 2], 0, 0), gate(&[2, 0, 1, 1], 0, 0), gate(&XOR_OF_THREE, 0, 0)], [Err(1), Err(100), Err(10)]);
    assert_eq!([gate(&late, 100_001, 0), gate(&late, 2, 0), gate(&late, 1, 0)], [Err(10), Err(11), Err(105)]);
    assert_eq!([gate(&XOR_OF_THREE, 1, 0), gate(&XOR_BUT_ONE, 1, 0), gate(&XOR_BUT_ONE, 100, 1)], [Err(105), Err(105), Err(12)]);
    assert_eq!([witness(&late, 0, 0), witness(&late, 2, 0), witness(&XOR_BUT_ONE, 100, 0)], [Err(10), Err(11), Err(105)]);
    assert_eq!([witness(&XOR_OF_THREE, 1, 7), witness(&XOR_OF_THREE, 1, 8), witness(&[9], 1, 8)], [Err(12), Ok(0), Err(5)]);
    let of = |weights: &[i32]| numbers(calls::from_gate(&G4, weights, 1_000_001, 0));
    assert_eq!([of(&[1; 2]), of(&[1; 3])], [Err(104), Err(16)]);
    let of = |counts: &[u32]| numbers(calls::from_witness(&G4, counts, 0));
    assert_eq!([of(&[0; 7]), of(&[0; 8])], [Err(104), Err(16)]);
    assert_eq!([calls::check_gate(&G4, &[i32::MAX; 2], 0), calls::check_gate(&G4, &[1; 3], -1_000_001)].map(numbers), [Err(104), Err(7)]);
    assert_eq!([calls::check_witness(&G4, &[0; 9]), calls::check_witness(&G4, &[0; 8])].map(numbers), [Err(104), Err(8)]);
}

#[test]
fn kinds_parameters_and_values() {
    assert_eq!(calls::kinds(&G4, 8), Ok(vec![1, 1, 1, 0, 0, 0, 0, 0]));
    assert_eq!(calls::chow(&G4, 16).map(|q| [q[0], q[2], q[4]]), Ok([1, 1, 3]));
    assert_eq!([3, 5].map(|row| calls::value(&G4, row)), [Ok(false), Ok(true)]);
    // Rising in input 1 by rows 0 and 1, with a q below 0 by rows 2 and 4, whose partners are not cared for.
    let table = table(&[5, 3, 0x16, 0x17]);
    assert_eq!((table.kind(1), table.chow(1)), (Kind::Rising, -1));
}

/// Records of kinds 1 and 5; a table without a row cared for enters the mean; kind 6 is 5.
#[test]
fn reports_take_kinds_1_and_5() {
    assert_eq!(report(&NONE), "1 2 G 0 0 0 0 0\n1 1 0 0 0.0\n");
    assert_eq!(report(&[&[1, 1, 2][..], &NONE].concat()), "1 1 G 5 3 2 1\n2 2 G 0 0 0 0 0\n2 2 0 0 2.5\n");
    assert_eq!(report(&[6, 2, 0x06, 0x07, 0, 0, 0, 0, 0, 0, 0, 0]), "1 R 5\n0 0 0 0 -\n");
    assert_eq!(report(&[5, 2, 0x06, 0x0F]), "1 R 16\n0 0 0 0 -\n");
    assert_eq!(report(&XOR_OF_THREE), "1 3 N 0 2 0:1 1:1 2:1 3:1\n1 0 1 0 -\n");
}
