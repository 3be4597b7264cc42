//! A call of the C interface, made by the library and by the reference.

use crate::lent::{put, Lent, Outcome};

/// A call with its arguments but for the record, if it takes one, and what it writes to.
#[derive(Clone, Copy, Debug)]
pub enum Call<'a> {
    FromHex(u32, &'a [u8]),
    FromWords(u32, &'a [u64]),
    FromCares(u32, &'a [u64], &'a [u64]),
    Decide,
    CarryOn(u32),
    Fresh,
    Corrections,
    FindGate(u32),
    FindWitness(u32),
    Check,
    CheckGate(&'a [i32], i32),
    CheckWitness(&'a [u32]),
    Gate,
    Witness,
    FromGate(&'a [i32], i32),
    FromWitness(&'a [u32]),
    Kind,
    Kinds,
    Chow,
    Value(u32),
}

impl Call<'_> {
    /// The name in the header, but for its first part.
    pub fn name(self) -> &'static str {
        match self {
            Call::FromHex(..) => "from_hex",
            Call::FromWords(..) => "from_words",
            Call::FromCares(..) => "from_cares",
            Call::Decide => "decide",
            Call::CarryOn(_) => "carry_on",
            Call::Fresh => "fresh",
            Call::Corrections => "corrections",
            Call::FindGate(_) => "find_gate",
            Call::FindWitness(_) => "find_witness",
            Call::Check => "check",
            Call::CheckGate(..) => "check_gate",
            Call::CheckWitness(_) => "check_witness",
            Call::Gate => "gate",
            Call::Witness => "witness",
            Call::FromGate(..) => "from_gate",
            Call::FromWitness(_) => "from_witness",
            Call::Kind => "kind",
            Call::Kinds => "kinds",
            Call::Chow => "chow",
            Call::Value(_) => "value",
        }
    }

    pub fn by_library(self, record: &[u8], mut lent: Lent) -> Outcome {
        use threshold::calls;
        let Lent { out, made, weights, threshold, counts } = &mut lent;
        let said = match self {
            Call::FromHex(inputs, digits) => calls::from_hex(inputs, digits, out),
            Call::FromWords(inputs, words) => calls::from_words(inputs, words, out),
            Call::FromCares(inputs, words, cares) => calls::from_cares(inputs, words, cares, out),
            Call::Decide => calls::decide(record, out, made),
            Call::CarryOn(budget) => calls::carry_on(record, budget, out, made),
            Call::Fresh => calls::fresh(record, out),
            Call::Corrections => calls::corrections(record).map(|k| k as usize),
            Call::FindGate(budget) => calls::find_gate(record, budget, weights, threshold, made),
            Call::FindWitness(budget) => calls::find_witness(record, budget, counts, made),
            Call::Check => calls::check(record).map(usize::from),
            Call::CheckGate(weights, threshold) => calls::check_gate(record, weights, threshold).map(usize::from),
            Call::CheckWitness(counts) => calls::check_witness(record, counts).map(usize::from),
            Call::Gate => calls::gate(record, weights, threshold),
            Call::Witness => calls::witness(record, counts),
            Call::FromGate(weights, threshold) => calls::from_gate(record, weights, threshold, out),
            Call::FromWitness(counts) => calls::from_witness(record, counts, out),
            Call::Kind => calls::kind(record).map(usize::from),
            Call::Kinds => calls::kinds(record, out),
            Call::Chow => calls::chow(record, out),
            Call::Value(row) => calls::value(record, row).map(usize::from),
        };
        Outcome { said: said.map_err(threshold::Refusal::number), lent }
    }

    pub fn by_reference(self, record: &[u8], lent: Lent) -> Outcome {
        use reference::calls;
        let room = lent.room(self);
        match self {
            Call::FromHex(inputs, digits) => lent.writing(calls::from_hex(inputs, digits, room)),
            Call::FromWords(inputs, words) => lent.writing(calls::from_words(inputs, words, room)),
            Call::FromCares(inputs, words, cares) => lent.writing(calls::from_cares(inputs, words, cares, room)),
            Call::Decide => lent.handing(calls::decide(record, room)),
            Call::CarryOn(budget) => lent.handing(calls::carry_on(record, budget, room)),
            Call::Fresh => lent.writing(calls::fresh(record, room)),
            Call::Corrections => lent.saying(calls::corrections(record).map(|k| k as usize)),
            Call::FindGate(budget) => lent.finding_gate(calls::find_gate(record, budget, room)),
            Call::FindWitness(budget) => lent.finding_witness(calls::find_witness(record, budget, room)),
            Call::Check => lent.saying(calls::check(record).map(usize::from)),
            Call::CheckGate(weights, threshold) => lent.saying(calls::check_gate(record, weights, threshold).map(usize::from)),
            Call::CheckWitness(counts) => lent.saying(calls::check_witness(record, counts).map(usize::from)),
            Call::Gate => lent.after(calls::gate(record, room), |lent, (weights, threshold)| {
                lent.threshold = threshold;
                put(&mut lent.weights, &weights)
            }),
            Call::Witness => lent.after(calls::witness(record, room), |lent, counts| put(&mut lent.counts, &counts)),
            Call::FromGate(weights, threshold) => lent.writing(calls::from_gate(record, weights, threshold, room)),
            Call::FromWitness(counts) => lent.writing(calls::from_witness(record, counts, room)),
            Call::Kind => lent.saying(calls::kind(record).map(usize::from)),
            Call::Kinds => lent.writing(calls::kinds(record, room)),
            Call::Chow => lent.writing(calls::chow(record, room)),
            Call::Value(row) => lent.saying(calls::value(record, row).map(usize::from)),
        }
    }
}
