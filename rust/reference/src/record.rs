//! "Records": what is read from bytes and written as bytes, with kinds 5 and 6 of document 02, §3.

use crate::gate::{self, Gate};
use crate::job::{Job, Vector};
use crate::refusal::{demand, Refusal};
use crate::table::Table;
use crate::witness::{self, Witness};

/// A record. A table or an open job is of kind 1 or 4 where every row is cared for, and else of kind 5 or 6.
#[derive(Clone, Debug, PartialEq, Eq)]
pub enum Record {
    Table(Table),
    Gate(Table, Gate),
    Witness(Table, Witness),
    Job(Job),
}

/// The sender's bytes together with the position reached.
struct Reader<'a> {
    bytes: &'a [u8],
    at: usize,
}

impl Reader<'_> {
    fn byte(&mut self) -> Result<u8, Refusal> {
        let byte = *self.bytes.get(self.at).ok_or(Refusal::EndsEarly)?;
        self.at += 1;
        Ok(byte)
    }

    /// A number: one to three groups of seven bits, lowest first, in shortest form.
    fn number(&mut self) -> Result<i64, Refusal> {
        let mut value = 0;
        for group in 0..3 {
            let byte = self.byte()?;
            value += i64::from(byte & 0x7f) << (7 * group);
            if byte < 0x80 {
                demand(byte != 0 || group == 0, Refusal::NotShortest)?;
                return Ok(value);
            }
        }
        Err(Refusal::NotShortest)
    }

    /// A signed z, written as 2z, or as -2z - 1 when negative.
    fn signed(&mut self) -> Result<i64, Refusal> {
        let code = self.number()?;
        Ok(if code % 2 == 0 { code / 2 } else { -(code + 1) / 2 })
    }

    /// A bit for each row: row r is bit r mod 8 of byte r div 8, and spare bits are 0.
    fn bits(&mut self, rows: usize) -> Result<Vec<bool>, Refusal> {
        let bytes = (0..rows.div_ceil(8)).map(|_| self.byte()).collect::<Result<Vec<u8>, Refusal>>()?;
        let mut bits = (0..8 * bytes.len()).map(|bit| (bytes[bit / 8] >> (bit % 8)) & 1 == 1);
        let of_rows = bits.by_ref().take(rows).collect();
        demand(bits.all(|spare| !spare), Refusal::SpareBit)?;
        Ok(of_rows)
    }

    /// n, the value bytes and, in kinds 5 and 6, the care bytes. These kinds carry a table with a row that is not cared for.
    fn table(&mut self, kind: u8) -> Result<Table, Refusal> {
        let n = self.number()?;
        demand(n <= 8, Refusal::InputsAboveEight)?;
        let values = self.bits(1 << n)?;
        if kind < 5 {
            return Ok(Table::full(n as usize, values));
        }
        let cares = self.bits(1 << n)?;
        let table = Table::with_cares(n as usize, values, cares)?;
        demand(!table.is_full(), Refusal::Care)?;
        Ok(table)
    }

    fn gate(&mut self, n: usize) -> Result<Gate, Refusal> {
        let mut in_range = || {
            let number = self.signed()?;
            demand(number.abs() <= gate::LIMIT, Refusal::GateRange)?;
            Ok(number)
        };
        let weights = (0..n).map(|_| in_range()).collect::<Result<_, _>>()?;
        Ok(Gate { weights, threshold: in_range()? })
    }

    fn vector(&mut self, n: usize) -> Result<Vector, Refusal> {
        let a = (0..n).map(|_| self.signed()).collect::<Result<_, _>>()?;
        Ok(Vector { a, b: self.signed()? })
    }

    /// A row list, as a count for each row. Each of its rules is put to `rule` as its field has been read.
    fn row_list(&mut self, table: &Table, mut rule: impl FnMut(bool) -> Result<(), Refusal>) -> Result<Vec<i64>, Refusal> {
        let rows = table.values.len() as i64;
        let mut counts = vec![0; table.values.len()];
        let mut before = -1;
        let length = self.number()?;
        rule(length <= rows)?;
        for _ in 0..length {
            let row = self.number()?;
            rule(row > before && row < rows)?;
            let count = self.number()?;
            rule((1..=witness::LIMIT).contains(&count))?;
            before = row;
            if row < rows {
                counts[row as usize] = count;
            }
        }
        Ok(counts)
    }

    /// A witness: 8 at the field that breaks a rule. An empty list has no count above 0.
    fn witness(&mut self, table: &Table) -> Result<Witness, Refusal> {
        let counts = self.row_list(table, |kept| demand(kept, Refusal::RowList))?;
        demand(counts.iter().any(|&count| count > 0), Refusal::RowList)?;
        Ok(Witness { counts })
    }

    /// An open job: every range, and soundness, after the last field.
    fn job(&mut self, table: Table) -> Result<Job, Refusal> {
        let k = self.number()?;
        let v = self.vector(table.n)?;
        let s = self.vector(table.n)?;
        let mut all_kept = true;
        let counts = self.row_list(&table, |kept| {
            all_kept &= kept;
            Ok(())
        })?;
        let job = Job::open(table, k, v, s, counts);
        demand(all_kept && job.is_sound(), Refusal::Unsound)?;
        Ok(job)
    }

    fn record(&mut self) -> Result<Record, Refusal> {
        let kind = self.byte()?;
        demand((1..=6).contains(&kind), Refusal::UnknownKind)?;
        let table = self.table(kind)?;
        Ok(match kind {
            1 | 5 => Record::Table(table),
            2 => {
                let gate = self.gate(table.n)?;
                Record::Gate(table, gate)
            }
            3 => {
                let witness = self.witness(&table)?;
                Record::Witness(table, witness)
            }
            _ => Record::Job(self.job(table)?),
        })
    }
}

/// Writes a number: groups of seven bits, lowest first, bit 7 set on all but the last.
pub fn put_number(out: &mut Vec<u8>, mut value: i64) {
    while value >= 0x80 {
        out.push((value % 0x80) as u8 | 0x80);
        value /= 0x80;
    }
    out.push(value as u8);
}

fn put_signed(out: &mut Vec<u8>, z: i64) {
    put_number(out, if z >= 0 { 2 * z } else { -2 * z - 1 });
}

fn put_all_signed(out: &mut Vec<u8>, numbers: &[i64], last: i64) {
    numbers.iter().chain([&last]).for_each(|&z| put_signed(out, z));
}

/// Writes a bit for each row.
fn put_bits(out: &mut Vec<u8>, bits: &[bool]) {
    for rows in bits.chunks(8) {
        out.push(rows.iter().enumerate().map(|(bit, &value)| u8::from(value) << bit).sum());
    }
}

fn put_row_list(out: &mut Vec<u8>, counts: &[i64]) {
    put_number(out, counts.iter().filter(|&&count| count > 0).count() as i64);
    for (row, &count) in counts.iter().enumerate().filter(|(_, &count)| count > 0) {
        put_number(out, row as i64);
        put_number(out, count);
    }
}

impl Record {
    /// The single record that the bytes are.
    pub fn read(bytes: &[u8]) -> Result<Record, Refusal> {
        let mut reader = Reader { bytes, at: 0 };
        let record = reader.record()?;
        demand(reader.at == bytes.len(), Refusal::BytesLeft)?;
        Ok(record)
    }

    /// The table that the bytes begin with, and the bytes after it. In a report any kind but 1 and 5 is refused.
    pub fn first_table(bytes: &[u8]) -> Result<(Table, &[u8]), Refusal> {
        let mut reader = Reader { bytes, at: 0 };
        let kind = reader.byte()?;
        demand([1, 5].contains(&kind), Refusal::UnknownKind)?;
        let table = reader.table(kind)?;
        Ok((table, &bytes[reader.at..]))
    }

    /// The kind byte, 1 to 6. A gate or a witness for a table with a row that is not cared for has none.
    pub fn kind(&self) -> Result<u8, Refusal> {
        match (self, self.table().is_full()) {
            (Record::Table(_), true) => Ok(1),
            (Record::Gate(..), true) => Ok(2),
            (Record::Witness(..), true) => Ok(3),
            (Record::Job(_), true) => Ok(4),
            (Record::Table(_), false) => Ok(5),
            (Record::Job(_), false) => Ok(6),
            (Record::Gate(..) | Record::Witness(..), false) => Err(Refusal::Care),
        }
    }

    fn table(&self) -> &Table {
        match self {
            Record::Table(table) | Record::Gate(table, _) | Record::Witness(table, _) => table,
            Record::Job(job) => &job.table,
        }
    }

    /// The bytes of the record, if its table can be in one of its kind.
    pub fn bytes(&self) -> Result<Vec<u8>, Refusal> {
        let table = self.table();
        let mut out = vec![self.kind()?];
        put_number(&mut out, table.n as i64);
        put_bits(&mut out, &table.values);
        if !table.is_full() {
            put_bits(&mut out, &table.cares);
        }
        match self {
            Record::Table(_) => {}
            Record::Gate(_, gate) => put_all_signed(&mut out, &gate.weights, gate.threshold),
            Record::Witness(_, witness) => put_row_list(&mut out, &witness.counts),
            Record::Job(job) => {
                put_number(&mut out, job.k);
                put_all_signed(&mut out, &job.v.a, job.v.b);
                put_all_signed(&mut out, &job.s.a, job.s.b);
                put_row_list(&mut out, &job.counts);
            }
        }
        Ok(out)
    }
}
