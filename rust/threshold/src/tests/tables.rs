//! Tables by words, functions and bytes, and what is asked of one.

use super::{some_tables, table};
use crate::{InputKind, Refusal, Table};

#[test]
fn words_are_given_and_taken() {
    for table in some_tables() {
        let (inputs, words) = (table.inputs(), table.words());
        assert_eq!(Table::from_words(inputs, &words).as_ref(), Ok(&table));
        assert_eq!(Table::from_fn(inputs, |row| words[row as usize / 64] >> (row % 64) & 1 == 1).as_ref(), Ok(&table));
        assert_eq!(Table::from_fn(inputs, |row| table.value(row).unwrap()).as_ref(), Ok(&table));
        assert_eq!(Table::new(inputs, table.bytes()).as_ref(), Ok(&table));
        assert_eq!(Table::from_record(table.record()).as_ref(), Ok(&table));
    }
    assert_eq!(table("123456789abcdef0fedcba9876543210").words(), [0xfedc_ba98_7654_3210, 0x1234_5678_9abc_def0, 0, 0]);
}

#[test]
fn what_is_past_the_rows_does_not_count() {
    for inputs in 0..=8 {
        let last = (1 << inputs).min(64) - 1; // of a word
        assert_eq!(Table::from_words(inputs, &[!0 << last; 5]), Table::from_fn(inputs, |row| row % 64 == last));
    }
    assert_eq!(Table::from_words(3, &[0xe8e8_e8e8_e8e8_e8e8]), Ok(table("e8")));
}

#[test]
fn functions_are_asked_row_by_row() {
    let mut asked = Vec::new();
    let parity = Table::from_fn(3, |row| {
        asked.push(row);
        row.count_ones() % 2 == 1
    });
    assert_eq!((parity, asked), (Ok(table("96")), (0..8).collect()));
}

#[test]
fn inputs_have_kinds_and_parameters() {
    let table = table("ea");
    assert_eq!(table.kinds()[..4], [InputKind::Rising, InputKind::Rising, InputKind::Rising, InputKind::Idle]);
    assert_eq!(table.chow(), [3, 1, 1, 0, 0, 0, 0, 0]);
    assert_eq!(Table::new(1, &[0x01]).unwrap().kinds()[0], InputKind::Falling);
    assert_eq!(Table::new(2, &[0x06]).unwrap().kinds()[..2], [InputKind::Binate; 2]);
    assert_eq!(Table::new(1, &[0x01]).unwrap().chow()[0], -1);
}

#[test]
fn rows_have_values() {
    assert_eq!([0, 7, 8, u32::MAX].map(|row| table("e8").value(row)), [Ok(false), Ok(true), Err(Refusal::Row), Err(Refusal::Row)]);
}

#[test]
fn tables_are_refused_by_number() {
    assert_eq!(Table::new(9, &[0; 64]), Err(Refusal::Inputs));
    assert_eq!(Table::new(u32::MAX, &[]), Err(Refusal::Inputs));
    assert_eq!(Table::from_fn(9, |_| true), Err(Refusal::Inputs));
    assert_eq!(Table::from_fn(u32::MAX, |_| true), Err(Refusal::Inputs));
    assert_eq!(Table::from_words(9, &[0; 8]), Err(Refusal::Inputs));
    for (inputs, words) in [(0, 0), (6, 0), (7, 1), (8, 3)] {
        assert_eq!(Table::from_words(inputs, &[0; 4][..words]), Err(Refusal::Words));
    }
    assert_eq!(Table::new(4, &[0]), Err(Refusal::EndsEarly));
    assert_eq!(Table::new(2, &[0x10]), Err(Refusal::SpareBit));
    assert_eq!(Table::new(2, &[0, 0]), Err(Refusal::BytesLeft));
}
