//! The calls of the C interface. One on a record refuses by what reading gives, then by 100 for a kind that it does not take, then by its
//! own numbers in the header's order. A call that writes is given the room of what is lent and gives the bytes or numbers written.

use crate::gate::{self, Gate};
use crate::job::Job;
use crate::notation;
use crate::record::Record;
use crate::refusal::{demand, Refusal};
use crate::table::{Kind, Table};
use crate::witness::{self, Witness};

/// What a job is handed back as: the record of what it shows, and the corrections made in the call.
#[derive(Clone, Debug, PartialEq, Eq)]
pub struct HandedBack {
    pub bytes: Vec<u8>,
    pub made: u32,
}

/// The gate that a job has found: its weights and T, and the corrections made in the call.
#[derive(Clone, Debug, PartialEq, Eq)]
pub struct FoundGate {
    pub weights: Vec<i32>,
    pub threshold: i32,
    pub made: u32,
}

/// The witness that a job has ended with: its counts, and the corrections made in the call.
#[derive(Clone, Debug, PartialEq, Eq)]
pub struct FoundWitness {
    pub counts: Vec<u32>,
    pub made: u32,
}

/// The table of a record of kind 1 or 5.
fn table_of(record: &[u8]) -> Result<Table, Refusal> {
    match Record::read(record)? {
        Record::Table(table) => Ok(table),
        _ => Err(Refusal::OtherKind),
    }
}

/// The job of a record of kind 4 or 6, or the fresh job of a table.
fn job_of(record: &[u8]) -> Result<Job, Refusal> {
    match Record::read(record)? {
        Record::Table(table) => Ok(Job::fresh(table)),
        Record::Job(job) => Ok(job),
        _ => Err(Refusal::OtherKind),
    }
}

fn fitting<T>(answer: Vec<T>, room: usize) -> Result<Vec<T>, Refusal> {
    demand(answer.len() <= room, Refusal::BufferTooShort)?;
    Ok(answer)
}

/// The record's bytes: 16 where its table cannot be in one of its kind, then 12.
fn written(record: Record, room: usize) -> Result<Vec<u8>, Refusal> {
    fitting(record.bytes()?, room)
}

/// The record of the table that hex digits stand for.
pub fn from_hex(inputs: u32, digits: &[u8], room: usize) -> Result<Vec<u8>, Refusal> {
    written(Record::Table(notation::from_hex(inputs, digits)?), room)
}

/// The record of the table that words stand for.
pub fn from_words(inputs: u32, words: &[u64], room: usize) -> Result<Vec<u8>, Refusal> {
    written(Record::Table(notation::from_words(inputs, words)?), room)
}

/// The record of the table that words stand for, with the rows cared for that other words say.
pub fn from_cares(inputs: u32, words: &[u64], cares: &[u64], room: usize) -> Result<Vec<u8>, Refusal> {
    written(Record::Table(notation::from_cares(inputs, words, cares)?), room)
}

/// The job carried on by the budget.
pub fn carried(job: &mut Job, budget: u32, room: usize) -> Result<HandedBack, Refusal> {
    let made = job.carry_on(budget)? as u32;
    Ok(HandedBack { bytes: written(job.shown(), room)?, made })
}

/// The fresh job of a table, carried on by 100,000.
pub fn decide(record: &[u8], room: usize) -> Result<HandedBack, Refusal> {
    carried(&mut Job::fresh(table_of(record)?), Job::CALL_BUDGET as u32, room)
}

/// A saved job, carried on by the budget.
pub fn carry_on(record: &[u8], budget: u32, room: usize) -> Result<HandedBack, Refusal> {
    let Record::Job(mut job) = Record::read(record)? else { return Err(Refusal::OtherKind) };
    carried(&mut job, budget, room)
}

/// The record of what the fresh job of a table shows: itself, or the witness of a table with a binate input.
pub fn fresh(record: &[u8], room: usize) -> Result<Vec<u8>, Refusal> {
    written(Job::fresh(table_of(record)?).shown(), room)
}

/// The gate that a job has found after these corrections.
pub fn gate_of_job(job: &Job, made: u32, room: usize) -> Result<FoundGate, Refusal> {
    let Gate { weights, threshold } = job.gate().ok_or(Refusal::NotFound)?;
    let weights = fitting(weights.into_iter().map(|weight| weight as i32).collect(), room)?;
    Ok(FoundGate { weights, threshold: threshold as i32, made })
}

/// The witness that a job has ended with after these corrections.
pub fn witness_of_job(job: &Job, made: u32, room: usize) -> Result<FoundWitness, Refusal> {
    let Witness { counts } = job.witness().ok_or(Refusal::NotFound)?;
    Ok(FoundWitness { counts: fitting(counts.into_iter().map(|count| count as u32).collect(), room)?, made })
}

/// The gate that a job, saved or fresh, has found when it is carried on by the budget.
pub fn find_gate(record: &[u8], budget: u32, room: usize) -> Result<FoundGate, Refusal> {
    let mut job = job_of(record)?;
    let made = job.carry_on(budget)? as u32;
    gate_of_job(&job, made, room)
}

/// The witness that a job, saved or fresh, has ended with when it is carried on by the budget.
pub fn find_witness(record: &[u8], budget: u32, room: usize) -> Result<FoundWitness, Refusal> {
    let mut job = job_of(record)?;
    let made = job.carry_on(budget)? as u32;
    witness_of_job(&job, made, room)
}

/// K of a saved job.
pub fn corrections(record: &[u8]) -> Result<u32, Refusal> {
    match Record::read(record)? {
        Record::Job(job) => Ok(job.k as u32),
        _ => Err(Refusal::OtherKind),
    }
}

/// Whether the gate realises the table, or the witness balances.
pub fn check(record: &[u8]) -> Result<bool, Refusal> {
    match Record::read(record)? {
        Record::Gate(table, gate) => Ok(gate.realises(&table)),
        Record::Witness(table, witness) => Ok(witness.balances(&table)),
        _ => Err(Refusal::OtherKind),
    }
}

/// The weights of a table's gate, and T.
pub fn gate(record: &[u8], room: usize) -> Result<(Vec<i32>, i32), Refusal> {
    let Record::Gate(_, Gate { weights, threshold }) = Record::read(record)? else { return Err(Refusal::OtherKind) };
    let weights = weights.into_iter().map(|weight| weight as i32).collect();
    Ok((fitting(weights, room)?, threshold as i32))
}

/// The count of each row of a table's witness.
pub fn witness(record: &[u8], room: usize) -> Result<Vec<u32>, Refusal> {
    let Record::Witness(_, Witness { counts }) = Record::read(record)? else { return Err(Refusal::OtherKind) };
    fitting(counts.into_iter().map(|count| count as u32).collect(), room)
}

/// A gate of these numbers, within their range.
fn gate_of(weights: &[i32], threshold: i32) -> Result<Gate, Refusal> {
    let (weights, threshold): (Vec<i64>, i64) = (weights.iter().map(|&weight| weight.into()).collect(), threshold.into());
    demand(weights.iter().chain([&threshold]).all(|number| number.abs() <= gate::LIMIT), Refusal::GateRange)?;
    Ok(Gate { weights, threshold })
}

/// A witness of these counts, within their range and not all 0.
fn witness_of(counts: &[u32]) -> Result<Witness, Refusal> {
    let counts: Vec<i64> = counts.iter().map(|&count| count.into()).collect();
    demand(counts.iter().all(|&count| count <= witness::LIMIT), Refusal::RowList)?;
    demand(counts.iter().any(|&count| count > 0), Refusal::RowList)?;
    Ok(Witness { counts })
}

/// The record of a table with a gate of these weights and this T.
pub fn from_gate(record: &[u8], weights: &[i32], threshold: i32, room: usize) -> Result<Vec<u8>, Refusal> {
    let table = table_of(record)?;
    demand(weights.len() == table.n, Refusal::NumberCount)?;
    demand(table.is_full(), Refusal::Care)?;
    let gate = gate_of(weights, threshold)?;
    written(Record::Gate(table, gate), room)
}

/// The record of a table with a witness of these counts.
pub fn from_witness(record: &[u8], counts: &[u32], room: usize) -> Result<Vec<u8>, Refusal> {
    let table = table_of(record)?;
    demand(counts.len() == table.rows().len(), Refusal::NumberCount)?;
    demand(table.is_full(), Refusal::Care)?;
    let witness = witness_of(counts)?;
    written(Record::Witness(table, witness), room)
}

/// Whether the gate of these weights and this T realises the table.
pub fn check_gate(record: &[u8], weights: &[i32], threshold: i32) -> Result<bool, Refusal> {
    let table = table_of(record)?;
    demand(weights.len() == table.n, Refusal::NumberCount)?;
    Ok(gate_of(weights, threshold)?.realises(&table))
}

/// Whether the witness of these counts balances against the table.
pub fn check_witness(record: &[u8], counts: &[u32]) -> Result<bool, Refusal> {
    let table = table_of(record)?;
    demand(counts.len() == table.rows().len(), Refusal::NumberCount)?;
    Ok(witness_of(counts)?.balances(&table))
}

/// The kind of the record.
pub fn kind(record: &[u8]) -> Result<u8, Refusal> {
    Record::read(record)?.kind()
}

/// A byte for each of eight inputs, its kind; past n idle.
pub fn kinds(record: &[u8], room: usize) -> Result<Vec<u8>, Refusal> {
    let table = table_of(record)?;
    let kind = |input| if input <= table.n { table.kind(input) } else { Kind::Idle };
    fitting((1..=8).map(|input| kind(input) as u8).collect(), room)
}

/// Two bytes, low byte first, for each of eight inputs, its q; past n 0.
pub fn chow(record: &[u8], room: usize) -> Result<Vec<u8>, Refusal> {
    let table = table_of(record)?;
    let q = |input| if input <= table.n { table.chow(input) } else { 0 };
    fitting((1..=8).flat_map(|input| (q(input) as i16).to_le_bytes()).collect(), room)
}

/// The value of a table, or of a gate, on the row.
pub fn value(record: &[u8], row: u32) -> Result<bool, Refusal> {
    let row = row as usize;
    let (table, gate) = match Record::read(record)? {
        Record::Table(table) => (table, None),
        Record::Gate(table, gate) => (table, Some(gate)),
        _ => return Err(Refusal::OtherKind),
    };
    demand(table.rows().contains(&row), Refusal::RowPastTable)?;
    Ok(gate.map_or(table.values[row], |gate| gate.value(row)))
}
