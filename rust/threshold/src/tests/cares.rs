//! Tables with rows that are not cared for, and their verdicts.

use super::{some_tables, table, SLOW};
use crate::{Gate, InputKind, Outcome, Refusal, SavedJob, Table, Verdict, Witness, CALL_BUDGET};

/// Source document 002's example, and XOR of two inputs with row 3 free.
fn example() -> Table {
    Table::from_cares(3, &[0xe0], &[0xf7]).unwrap()
}

fn never_both() -> Table {
    Table::from_cares(2, &[0x6], &[0x7]).unwrap()
}

/// The slow table with row 0 not cared for: it is open after 100,000 corrections.
fn slow() -> Table {
    let full = Table::new(8, &SLOW).unwrap();
    Table::from_partial_fn(8, |row| full.value(row).ok().filter(|_| row > 0)).unwrap()
}

#[test]
fn rows_are_cared_for_or_not() {
    let table = example();
    assert!(table.is_partial() && !table_of_all(&table).is_partial());
    assert_eq!((table.words(), table.cares(), table.inputs()), ([0xe0, 0, 0, 0], [0xf7, 0, 0, 0], 3));
    assert_eq!([2, 3, 7, 8].map(|row| table.cares_for(row)), [Ok(true), Ok(false), Ok(true), Err(Refusal::Row)]);
    assert_eq!([3, 5, 8].map(|row| table.value(row)), [Ok(false), Ok(true), Err(Refusal::Row)]);
    assert_eq!(table.record(), [5, 3, 0xe0, 0xf7]);
    assert_eq!(Table::from_record(table.record()).as_ref(), Ok(&table));
    assert_ne!(table, table_of_all(&table));
}

/// The table of the same values with every row cared for.
fn table_of_all(table: &Table) -> Table {
    Table::from_words(table.inputs(), &table.words()).unwrap()
}

#[test]
fn with_every_row_cared_for_a_table_is_as_before() {
    for table in some_tables() {
        assert!(!table.is_partial());
        assert_eq!(Table::from_cares(table.inputs(), &table.words(), &table.cares()).as_ref(), Ok(&table));
        assert_eq!(Table::from_cares(table.inputs(), &table.words(), &[u64::MAX; 4]).as_ref(), Ok(&table));
        assert_eq!((0..1 << table.inputs()).filter(|&row| table.cares_for(row) == Ok(true)).count(), 1 << table.inputs());
    }
}

#[test]
fn what_is_shown_is_read_back() {
    for (inputs, bits) in (2..=8).flat_map(|inputs| (0..64).map(move |bits| (inputs, bits))) {
        let state = |row: u32| (bits >> (row % 6) & 1 == 0).then_some(row.is_multiple_of(3));
        let table = Table::from_partial_fn(inputs, state).unwrap();
        let shown = table.to_string();
        assert_eq!(shown.parse().as_ref(), Ok(&table), "{shown}");
        assert_eq!(shown.contains('@'), table.is_partial());
        assert_eq!(Table::from_record(table.record()).as_ref(), Ok(&table));
        for row in 0..1 << inputs {
            assert_eq!(table.cares_for(row).map(|cared| cared.then(|| table.value(row).unwrap())), Ok(state(row)));
        }
    }
    assert_eq!((example().to_string(), format!("{:?}", never_both())), ("e0@f7".into(), "Table(6@7, 2 inputs)".into()));
    assert_eq!("0xE0@0xF7".parse(), Ok(example()));
    assert_eq!(format!("{:>7}|", example()), "  e0@f7|");
}

#[test]
fn a_partial_table_that_is_none_is_refused() {
    for (text, refusal) in [
        ("e8@f7", Refusal::Care),
        ("e0@f", Refusal::Digits),
        ("e0@", Refusal::Digits),
        ("@f7", Refusal::Digits),
        ("e0@fg", Refusal::Digit),
        ("e0@f7@f7", Refusal::Digits),
    ] {
        assert_eq!(text.parse::<Table>(), Err(refusal), "{text}");
    }
    assert_eq!(Table::from_cares(9, &[0; 8], &[0; 8]), Err(Refusal::Inputs));
    assert_eq!(Table::from_cares(7, &[0; 2], &[0]), Err(Refusal::Words));
    assert_eq!(Table::from_cares(7, &[0], &[0; 2]), Err(Refusal::Words));
    assert_eq!(Table::from_partial_fn(9, |_| None), Err(Refusal::Inputs));
    assert_eq!(Table::from_record(&[5, 2, 0x06, 0x0f]), Err(Refusal::Care));
    assert_eq!(Table::from_record(&[5, 2, 0x16]), Err(Refusal::SpareBit));
}

#[test]
fn a_row_left_free_lets_a_gate_in() {
    let table = never_both();
    let Outcome { verdict: Verdict::Gate(gate), made } = table.decide() else { panic!() };
    assert_eq!((gate.to_string(), format!("{gate:?}")), ("2 x1 + 2 x2 >= 1".into(), "Gate(6@7, 2 inputs: 2 x1 + 2 x2 >= 1)".into()));
    assert_eq!((gate.table(), gate.inputs(), gate.record()), (table.clone(), 2, Err(Refusal::Care)));
    assert!(gate.realises());
    assert_eq!([0, 1, 2, 3, 4].map(|row| gate.value(row)), [Ok(false), Ok(true), Ok(true), Ok(true), Err(Refusal::Row)]);
    assert_eq!(Gate::new(&table, &gate.weights(), gate.threshold()), Ok(gate));
    assert_eq!(SavedJob::fresh(&table).unwrap().carry_on(made), Ok(table.decide()));
    assert_eq!(table.kinds()[..3], [InputKind::Rising, InputKind::Rising, InputKind::Idle]);
}

#[test]
fn a_witness_has_counts_on_rows_cared_for_alone() {
    let table = Table::from_cares(3, &[0x06], &[0x0f]).unwrap(); // XOR of inputs 1 and 2, where input 3 is false
    let Outcome { verdict: Verdict::Witness(witness), made: 0 } = table.decide() else { panic!() };
    assert_eq!((witness.to_string(), format!("{witness:?}")), ("1 2 = 0 3".into(), "Witness(06@0f, 3 inputs: 1 2 = 0 3)".into()));
    assert!(witness.balances() && witness.rows().eq([(0, 1), (1, 1), (2, 1), (3, 1)]));
    assert_eq!((witness.table(), witness.record()), (table.clone(), Err(Refusal::Care)));
    assert_eq!(table.fresh(), Verdict::Witness(witness.clone()));
    assert_eq!(Witness::new(&table, &[(0, 1), (1, 1), (2, 1), (3, 1)]), Ok(witness));
    assert!(!Witness::new(&table, &[(0, 1), (1, 1), (2, 1), (3, 1), (7, 1)]).unwrap().balances());
    assert_eq!(table.check_witness(&[1, 1, 1, 1, 0, 0, 0, 0]), Ok(true));
    assert_eq!(table.check_witness(&[1; 8]), Ok(false));
    assert_eq!(table.kinds()[2], InputKind::Idle);
}

#[test]
fn without_a_row_cared_for_any_gate_will_do() {
    for inputs in 0..=8 {
        let table = Table::from_partial_fn(inputs, |_| None).unwrap();
        let Outcome { verdict: Verdict::Gate(gate), made: 0 } = table.decide() else { panic!() };
        assert_eq!((gate.weights().to_vec(), gate.threshold()), (vec![0; inputs as usize], 0));
        assert_eq!((table.fresh(), SavedJob::fresh(&table)), (Verdict::Gate(gate), None));
        assert!(Gate::new(&table, &vec![-5; inputs as usize], 7).unwrap().realises());
    }
}

#[test]
fn an_open_job_is_stored_and_carried_on() {
    let table = slow();
    let Outcome { verdict: Verdict::Open(job), made: CALL_BUDGET } = table.decide() else { panic!() };
    assert_eq!((job.record()[0], job.corrections(), job.table()), (6, CALL_BUDGET, table));
    assert_eq!(SavedJob::from_record(job.record()).as_ref(), Ok(&job));
    assert_eq!(job.carry_on(0), Err(Refusal::Budget));
    let (mut verdict, mut made) = (Verdict::Open(job.clone()), 0);
    while let Verdict::Open(open) = &verdict {
        let outcome = open.carry_on(20_000).unwrap();
        (verdict, made) = (outcome.verdict, made + outcome.made);
    }
    let Verdict::Witness(witness) = &verdict else { panic!() };
    assert!(witness.balances() && witness.rows().all(|(row, _)| row > 0));
    assert_eq!(job.carry_on(CALL_BUDGET), Ok(Outcome { verdict, made }));
}

#[test]
fn gates_and_witnesses_are_checked_by_numbers() {
    let (table, full) = (example(), table("e0"));
    assert_eq!([table.check_gate(&[1, 1, 1], 2), full.check_gate(&[1, 1, 1], 2)], [Ok(true), Ok(false)]);
    assert!(Gate::new(&table, &[1, 1, 1], 2).unwrap().realises() && !Gate::new(&table, &[1, 1, 1], 3).unwrap().realises());
    assert_eq!([table.check_gate(&[1, 1], 2), Gate::new(&table, &[1, 1], 2).map(|_| true)], [Err(Refusal::Numbers); 2]);
    assert_eq!([table.check_gate(&[1, 1, 1_000_001], 2), Gate::new(&table, &[0; 3], -1_000_001).map(|_| true)], [Err(Refusal::Gate); 2]);
    assert_eq!([table.check_witness(&[1; 7]), table.check_witness(&[1; 9])], [Err(Refusal::Numbers); 2]);
    assert_eq!([table.check_witness(&[0; 8]), Witness::new(&table, &[]).map(|_| true)], [Err(Refusal::RowList); 2]);
    assert_eq!(Witness::new(&table, &[(0, 1_000_001)]), Err(Refusal::RowList));
}

#[test]
fn equal_verdicts_are_equal() {
    let (partial, other) = (Gate::new(&example(), &[1, 1, 1], 2).unwrap(), Gate::new(&table("e0"), &[1, 1, 1], 2).unwrap());
    assert_eq!(partial, partial.clone());
    assert_ne!(partial, other);
    assert_ne!(partial, Gate::new(&example(), &[1, 1, 1], 3).unwrap());
    assert_eq!(partial.to_string(), other.to_string());
}
