//! Refusals, and calls that are refused.

use super::table;
use crate::{calls, Gate, Refusal, SavedJob, Table, Witness, ROOM};

#[test]
fn refusals_have_their_numbers() {
    let known = (0..=255).filter_map(Refusal::from_number).map(Refusal::number);
    assert!(known.eq((1..=12).chain([14, 16]).chain(100..=105)));
    assert_eq!(Refusal::Budget.to_string(), "refused by 10: the budget is not within 1 to 100,000");
}

#[test]
fn records_are_refused_by_number() {
    assert_eq!(Table::from_record(&[0]), Err(Refusal::Kind));
    assert_eq!(Table::from_record(&[1, 0x80, 0x00]), Err(Refusal::Number));
    assert_eq!(SavedJob::from_record(&[1, 0, 0]), Err(Refusal::OtherKind));
    assert_eq!(SavedJob::from_record(&[4, 0, 0, 1, 0, 0, 1, 0, 1]), Err(Refusal::Unsound));
}

#[test]
fn a_refused_call_changes_no_byte() {
    let (both, job) = (table("8"), SavedJob::fresh(&table("8")).unwrap());
    let (record, mut out, mut made) = (both.record(), [7; ROOM], 7);
    let room = |refused: Result<usize, Refusal>| assert_eq!(refused, Err(Refusal::Room));
    let other_kind = |refused: Result<usize, Refusal>| assert_eq!(refused, Err(Refusal::OtherKind));
    room(calls::from_hex(2, b"8", &mut out[..2]));
    room(calls::from_words(2, &[8], &mut out[..2]));
    room(calls::from_cares(2, &[8], &[12], &mut out[..3]));
    room(calls::decide(record, &mut out[..5], &mut made));
    room(calls::fresh(record, &mut out[..10]));
    room(calls::from_gate(record, &[1, 1], 2, &mut out[..5]));
    room(calls::from_witness(record, &[1; 4], &mut out[..11]));
    other_kind(calls::decide(job.record(), &mut out, &mut made));
    other_kind(calls::carry_on(record, 1, &mut out, &mut made));
    other_kind(calls::fresh(job.record(), &mut out));
    other_kind(calls::from_gate(job.record(), &[1, 1], 2, &mut out));
    other_kind(calls::from_witness(job.record(), &[1; 4], &mut out));
    assert_eq!(calls::carry_on(job.record(), 0, &mut out, &mut made), Err(Refusal::Budget));
    assert_eq!(calls::from_gate(record, &[1], 2, &mut out), Err(Refusal::Numbers));
    assert_eq!(calls::from_witness(record, &[1; 5], &mut out), Err(Refusal::Numbers));
    assert_eq!(calls::from_witness(record, &[0; 4], &mut out), Err(Refusal::RowList));
    let partial = [5, 2, 6, 7];
    let care = |refused: Result<usize, Refusal>| assert_eq!(refused, Err(Refusal::Care));
    care(calls::from_cares(2, &[8], &[7], &mut out));
    care(calls::decide(&partial, &mut out, &mut made));
    care(calls::fresh(&[5, 2, 0, 0], &mut out));
    care(calls::from_gate(&partial, &[1, 1], 2, &mut out));
    care(calls::from_witness(&partial, &[1; 4], &mut out));
    assert_eq!((out, made), ([7; ROOM], 7));
}

#[test]
fn a_refused_call_changes_no_number() {
    let gate = Gate::new(&table("8"), &[1, 1], 2).unwrap();
    let witness = Witness::new(&table("8"), &[(0, 1)]).unwrap();
    let [gate, witness] = [gate.record().unwrap(), witness.record().unwrap()];
    let (mut weights, mut threshold, mut counts, mut made) = ([7; 8], 7, [7; 256], 7);
    assert_eq!(calls::gate(gate, &mut weights[..1], &mut threshold), Err(Refusal::Room));
    assert_eq!(calls::gate(witness, &mut weights, &mut threshold), Err(Refusal::OtherKind));
    assert_eq!(calls::witness(witness, &mut counts[..3]), Err(Refusal::Room));
    assert_eq!(calls::witness(gate, &mut counts), Err(Refusal::OtherKind));
    for (budget, room, refusal) in [(0, 8, Refusal::Budget), (17, 8, Refusal::NotFound), (18, 1, Refusal::Room)] {
        assert_eq!(calls::find_gate(&[1, 2, 8], budget, &mut weights[..room], &mut threshold, &mut made), Err(refusal));
    }
    for (budget, room, refusal) in [(0, 256, Refusal::Budget), (1, 3, Refusal::Room)] {
        assert_eq!(calls::find_witness(&[1, 2, 6], budget, &mut counts[..room], &mut made), Err(refusal));
    }
    assert_eq!(calls::find_witness(&[1, 2, 8], 18, &mut counts, &mut made), Err(Refusal::NotFound));
    assert_eq!((weights, threshold, counts, made), ([7; 8], 7, [7; 256], 7));
    assert_eq!(calls::corrections(gate), Err(Refusal::OtherKind));
}

#[test]
fn nothing_past_an_answer_is_changed() {
    let (mut out, mut weights, mut threshold, mut counts) = ([7; 8], [7; 3], 7, [7; 5]);
    assert_eq!((calls::from_hex(2, b"8", &mut out), out), (Ok(3), [1, 2, 8, 7, 7, 7, 7, 7]));
    assert_eq!(calls::from_gate(&[1, 2, 8], &[1, 1], 2, &mut out), Ok(6));
    assert_eq!((calls::gate(&out[..6], &mut weights, &mut threshold), weights, threshold), (Ok(2), [1, 1, 7], 2));
    assert_eq!((calls::from_witness(&[1, 2, 8], &[0, 0, 0, 9], &mut out), out), (Ok(6), [3, 2, 8, 1, 3, 9, 7, 7]));
    assert_eq!((calls::witness(&out[..6], &mut counts), counts), (Ok(4), [0, 0, 0, 9, 7]));
}
