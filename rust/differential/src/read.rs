//! What is lent to a call to be read.

use crate::call::Call;
use std::hint::black_box;

/// Copies of what a call reads, from before it: the record, and digits, words, cares, weights or counts.
pub struct Read {
    record: Vec<u8>,
    given: Given,
}

/// What a call is given beside the record.
enum Given {
    Nothing,
    Digits(Vec<u8>),
    Words(Vec<u64>),
    Cares(Vec<u64>, Vec<u64>),
    Weights(Vec<i32>),
    Counts(Vec<u32>),
}

impl Read {
    pub fn new(call: Call, record: &[u8]) -> Read {
        let given = match call {
            Call::FromHex(_, digits) => Given::Digits(digits.to_vec()),
            Call::FromWords(_, words) => Given::Words(words.to_vec()),
            Call::FromCares(_, words, cares) => Given::Cares(words.to_vec(), cares.to_vec()),
            Call::FromGate(weights, _) | Call::CheckGate(weights, _) => Given::Weights(weights.to_vec()),
            Call::FromWitness(counts) | Call::CheckWitness(counts) => Given::Counts(counts.to_vec()),
            _ => Given::Nothing,
        };
        Read { record: record.to_vec(), given }
    }

    /// Whether what the call reads is as it was, looked at in memory anew.
    pub fn is_kept(&self, call: Call, record: &[u8]) -> bool {
        let given_is_kept = match (&self.given, black_box(call)) {
            (Given::Digits(before), Call::FromHex(_, digits)) => before == digits,
            (Given::Words(before), Call::FromWords(_, words)) => before == words,
            (Given::Cares(words_before, before), Call::FromCares(_, words, cares)) => words_before == words && before == cares,
            (Given::Weights(before), Call::FromGate(weights, _) | Call::CheckGate(weights, _)) => before == weights,
            (Given::Counts(before), Call::FromWitness(counts) | Call::CheckWitness(counts)) => before == counts,
            (Given::Nothing, _) => true,
            _ => false,
        };
        self.record == black_box(record) && given_is_kept
    }
}
