//! What is lent to a call to be written to, before the call and after it.

use crate::call::Call;
use crate::random::Random;
use reference::calls::{FoundGate, FoundWitness, HandedBack};
use reference::refusal::Refusal;

/// The buffer, the number for the corrections made, the places for weights and T, and the places for counts.
#[derive(Clone, Debug, Default, PartialEq, Eq)]
pub struct Lent {
    pub out: Vec<u8>,
    pub made: u32,
    pub weights: Vec<i32>,
    pub threshold: i32,
    pub counts: Vec<u32>,
}

/// What a call says, or the number of its refusal; and what was lent, after it.
#[derive(Clone, Debug, PartialEq, Eq)]
pub struct Outcome {
    pub said: Result<usize, u8>,
    pub lent: Lent,
}

/// Writes to the start of what is lent, and gives how many.
pub fn put<T: Copy>(lent: &mut [T], answer: &[T]) -> usize {
    lent[..answer.len()].copy_from_slice(answer);
    answer.len()
}

impl Lent {
    /// What is lent to the call: so many bytes, weights or counts, as it writes them, and all numbers random.
    pub fn new(random: &mut Random, call: Call, room: usize) -> Lent {
        let mut lent = Lent { made: random.draw() as u32, threshold: random.draw() as i32, ..Lent::default() };
        match call {
            Call::Gate | Call::FindGate(_) => lent.weights = (0..room).map(|_| random.draw() as i32).collect(),
            Call::Witness | Call::FindWitness(_) => lent.counts = (0..room).map(|_| random.draw() as u32).collect(),
            _ => lent.out = random.bytes(room),
        }
        lent
    }

    /// How many bytes, weights or counts are lent to the call.
    pub fn room(&self, call: Call) -> usize {
        match call {
            Call::Gate | Call::FindGate(_) => self.weights.len(),
            Call::Witness | Call::FindWitness(_) => self.counts.len(),
            _ => self.out.len(),
        }
    }

    /// The outcome of a call whose answer is written by `write`, which gives what the call says; a refused call leaves all as it was.
    pub fn after<T>(mut self, answer: Result<T, Refusal>, write: impl FnOnce(&mut Lent, T) -> usize) -> Outcome {
        let said = answer.map(|answer| write(&mut self, answer)).map_err(|refusal| refusal as u8);
        Outcome { said, lent: self }
    }

    /// The outcome of a call that writes nothing.
    pub fn saying(self, answer: Result<usize, Refusal>) -> Outcome {
        self.after(answer, |_, said| said)
    }

    /// The outcome of a call that writes these bytes.
    pub fn writing(self, answer: Result<Vec<u8>, Refusal>) -> Outcome {
        self.after(answer, |lent, bytes| put(&mut lent.out, &bytes))
    }

    /// The outcome of a call that writes a record and sets the corrections made.
    pub fn handing(self, answer: Result<HandedBack, Refusal>) -> Outcome {
        self.after(answer, |lent, HandedBack { bytes, made }| {
            lent.made = made;
            put(&mut lent.out, &bytes)
        })
    }

    /// The outcome of a call that writes the weights of a gate, and sets T and the corrections made.
    pub fn finding_gate(self, answer: Result<FoundGate, Refusal>) -> Outcome {
        self.after(answer, |lent, FoundGate { weights, threshold, made }| {
            lent.threshold = threshold;
            lent.made = made;
            put(&mut lent.weights, &weights)
        })
    }

    /// The outcome of a call that writes the counts of a witness, and sets the corrections made.
    pub fn finding_witness(self, answer: Result<FoundWitness, Refusal>) -> Outcome {
        self.after(answer, |lent, FoundWitness { counts, made }| {
            lent.made = made;
            put(&mut lent.counts, &counts)
        })
    }
}

impl Outcome {
    /// The bytes that the call wrote.
    pub fn written(&self) -> Option<&[u8]> {
        self.said.ok().map(|length| &self.lent.out[..length])
    }
}
