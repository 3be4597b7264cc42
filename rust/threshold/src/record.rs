//! A record that the library has read or written, and what the types over one share.

use crate::{calls, Refusal, Table, ROOM};

/// The bytes of a record that is whole and right.
#[derive(Clone, PartialEq, Eq, Hash)]
pub struct Record(Box<[u8]>);

impl Record {
    /// The bytes as a record of one of these kinds.
    pub fn read(bytes: &[u8], kinds: &[u8]) -> Result<Record, Refusal> {
        if kinds.contains(&calls::kind(bytes)?) {
            Ok(Record(bytes.into()))
        } else {
            Err(Refusal::OtherKind)
        }
    }

    /// The record that a call writes.
    pub fn written_by(call: impl FnOnce(&mut [u8]) -> Result<usize, Refusal>) -> Result<Record, Refusal> {
        let mut out = [0; ROOM];
        let length = call(&mut out)?;
        Ok(Record(out[..length].into()))
    }

    pub fn bytes(&self) -> &[u8] {
        &self.0
    }

    pub fn kind(&self) -> u8 {
        self.0[0]
    }

    pub fn inputs(&self) -> u32 {
        u32::from(self.0[1])
    }

    /// Whether some row of the table is not cared for.
    pub fn is_partial(&self) -> bool {
        self.kind() >= 5
    }

    /// A bit for each row, after so many bytes of others.
    fn bits(&self, after: usize) -> &[u8] {
        &self.0[2 + after..][..(1usize << self.inputs()).div_ceil(8)]
    }

    /// The bytes of the table's values.
    pub fn table_bytes(&self) -> &[u8] {
        self.bits(0)
    }

    /// The bytes of the rows cared for, if not every row is.
    pub fn care_bytes(&self) -> Option<&[u8]> {
        self.is_partial().then(|| self.bits(self.table_bytes().len()))
    }

    /// The table's value on one of its rows.
    pub fn table_value(&self, row: u32) -> bool {
        self.table_bytes()[row as usize / 8] >> (row % 8) & 1 == 1
    }

    /// The table that the record is about.
    pub fn table(&self) -> Table {
        let kind = if self.is_partial() { 5 } else { 1 };
        let head = [kind, self.0[1]];
        answered(Table::from_record(&[&head, self.table_bytes(), self.care_bytes().unwrap_or_default()].concat()))
    }
}

/// What the library says of a record of a kind that the call takes, where the call has no refusal of its own left.
pub fn answered<T>(said: Result<T, Refusal>) -> T {
    said.unwrap_or_else(|refusal| panic!("a right record was {refusal}"))
}

/// What every type over a record has, which is of one of two kinds: with every row cared for, or not.
macro_rules! over_record {
    ($type:ident, $full:literal, $partial:literal) => {
        impl $type {
            /// Reads such a record: any bytes may be given.
            ///
            /// # Errors
            ///
            /// What reading gives, numbers 1 to 9 and 16, and [`Refusal::OtherKind`] for a record of another kind.
            pub fn from_record(bytes: &[u8]) -> Result<$type, Refusal> {
                $crate::record::Record::read(bytes, &[$full, $partial]).map($type)
            }

            /// The record, to be stored and read back.
            pub fn record(&self) -> &[u8] {
                self.0.bytes()
            }

            /// The number of inputs, 0 to 8.
            pub fn inputs(&self) -> u32 {
                self.0.inputs()
            }
        }
    };
}
pub(crate) use over_record;
