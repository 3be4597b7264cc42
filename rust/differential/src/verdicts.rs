//! Tables decided: every table of up to four inputs, the samples, and random tables of up to eight.

use crate::call::Call;
use crate::cares::back_by_cares;
use crate::compare::Comparison;
use crate::difference::Difference;
use crate::digits::back_by_digits;
use crate::gates::back_by_weights;
use crate::records::nudged;
use crate::tables::{every_table, samples, table, Family};
use crate::witnesses::back_by_counts;
use crate::words::back_by_words;
use reference::calls::{self, FoundGate, FoundWitness, HandedBack};
use reference::refusal::Refusal;
use threshold::{CALL_BUDGET, ROOM};

/// Random tables of each family by n, 0 to 8. The reference takes milliseconds for a gate of eight inputs, and a thousandth of that to
/// see a binate input.
const RANDOM: [(Family, [usize; 9]); 4] = [
    (Family::Random, [100, 100, 1_000, 20_000, 100_000, 200_000, 150_000, 100_000, 50_000]),
    (Family::Threshold, [100, 100, 1_000, 20_000, 60_000, 40_000, 10_000, 2_500, 1_000]),
    (Family::NearlyThreshold, [100, 100, 1_000, 20_000, 60_000, 40_000, 10_000, 2_500, 1_000]),
    (Family::Unate, [100, 100, 1_000, 20_000, 60_000, 40_000, 10_000, 2_500, 1_000]),
];

/// Compares the verdicts of all tables, and gives their number.
pub fn compare_verdicts(comparison: &mut Comparison) -> Result<u64, Difference> {
    let mut verdicts = 0;
    for record in (0..=4).flat_map(every_table).chain(samples()) {
        verdict(comparison, &record)?;
        verdicts += 1;
    }
    for (family, numbers) in RANDOM {
        for (n, number) in numbers.into_iter().enumerate() {
            for _ in 0..number {
                let record = table(&mut comparison.random, family, n);
                verdict(comparison, &record)?;
            }
            verdicts += number as u64;
        }
    }
    Ok(verdicts)
}

/// Compares a table's verdict and the check of its certificate; of one in eight also all else that can be asked: the verdict in other
/// rooms, in numbers and by a fresh job, the ways back to both records, inputs and rows, and the check of another certificate.
fn verdict(comparison: &mut Comparison, record: &[u8]) -> Result<(), Difference> {
    let outcome = comparison.compare(Call::Decide, record, ROOM)?;
    let answer = outcome.written().expect("a table is decided");
    comparison.compare(Call::Check, answer, 0)?;
    if comparison.random.one_in(8) {
        let handed = HandedBack { bytes: answer.to_vec(), made: outcome.lent.made };
        for room in [answer.len() - 1, answer.len()] {
            comparison.compare_handing(Call::Decide, record, Ok(handed.clone()), room)?;
        }
        by_numbers(comparison, record, &handed)?;
        by_fresh_job(comparison, record, handed)?;
        ways_back(comparison, record, answer)?;
        inputs_and_rows(comparison, record)?;
        inputs_and_rows(comparison, answer)?;
        let nudged = nudged(&mut comparison.random, answer);
        comparison.compare(Call::Check, &nudged, 0)?;
    }
    Ok(())
}

/// Compares whether digits, words and cares give the table back, and weights or counts its certificate.
fn ways_back(comparison: &mut Comparison, record: &[u8], answer: &[u8]) -> Result<(), Difference> {
    back_by_digits(comparison, record)?;
    back_by_words(comparison, record)?;
    back_by_cares(comparison, record)?;
    match answer[0] {
        2 => back_by_weights(comparison, answer),
        3 => back_by_counts(comparison, answer),
        _ => comparison.compare(Call::Corrections, answer, 0).map(|_| ()),
    }
}

/// Compares the gate and the witness that a table's job gives in numbers, by what deciding has written, and the checks of these numbers.
fn by_numbers(comparison: &mut Comparison, record: &[u8], decided: &HandedBack) -> Result<(), Difference> {
    let HandedBack { bytes, made } = decided;
    let (made, call, room) = (*made, Call::FindGate(CALL_BUDGET), 8);
    let gate = calls::gate(bytes, room).map(|(weights, threshold)| FoundGate { weights, threshold, made }).map_err(|_| Refusal::NotFound);
    let outcome = comparison.compare_finding(call, record, room, |lent| lent.finding_gate(gate))?;
    if let Ok(inputs) = outcome.said {
        comparison.compare(Call::CheckGate(&outcome.lent.weights[..inputs], outcome.lent.threshold), record, 0)?;
    }
    let (call, room) = (Call::FindWitness(CALL_BUDGET), 256);
    let witness = calls::witness(bytes, room).map(|counts| FoundWitness { counts, made }).map_err(|_| Refusal::NotFound);
    let outcome = comparison.compare_finding(call, record, room, |lent| lent.finding_witness(witness))?;
    if let Ok(rows) = outcome.said {
        comparison.compare(Call::CheckWitness(&outcome.lent.counts[..rows]), record, 0)?;
    }
    Ok(())
}

/// Compares the fresh job of a table, its corrections, and whether it is carried on to what deciding gives; one that has ended is that.
fn by_fresh_job(comparison: &mut Comparison, record: &[u8], decided: HandedBack) -> Result<(), Difference> {
    let outcome = comparison.compare(Call::Fresh, record, ROOM)?;
    let fresh = outcome.written().expect("a table has a fresh job");
    comparison.compare(Call::Corrections, fresh, 0)?;
    if fresh[0] == 4 {
        comparison.compare_handing(Call::CarryOn(CALL_BUDGET), fresh, Ok(decided), ROOM)?;
    } else if fresh != decided.bytes {
        return Err(Difference::of_record(Call::Fresh, &decided.bytes, Some(fresh)));
    }
    for room in [fresh.len() - 1, fresh.len()] {
        comparison.compare(Call::Fresh, record, room)?;
    }
    Ok(())
}

/// Compares the kinds and Chow's parameters, with any room, and the value on each row and past the last.
pub fn inputs_and_rows(comparison: &mut Comparison, record: &[u8]) -> Result<(), Difference> {
    for call in [Call::Kinds, Call::Chow] {
        let room = comparison.random.below(24);
        comparison.compare(call, record, room)?;
    }
    let rows = 1 << record[1];
    for row in (0..=rows).chain([u32::MAX]) {
        comparison.compare(Call::Value(row), record, 0)?;
    }
    Ok(())
}
