//! A table with a gate or a witness for it, and what the two types share.

use crate::record::Record;
use crate::{Refusal, Table};

/// A table with what is claimed of it: a record of kind 2 or 3; or, where a row is not cared for and no such record is, the table's record
/// and the numbers.
#[derive(Clone, PartialEq, Eq, Hash)]
pub enum Claim<N> {
    Record(Record),
    Numbers(Record, N),
}

impl<N> Claim<N> {
    /// The record that has the table in it.
    pub fn with_table(&self) -> &Record {
        match self {
            Claim::Record(record) | Claim::Numbers(record, _) => record,
        }
    }

    pub fn table(&self) -> Table {
        self.with_table().table()
    }

    /// The record of table and claim.
    pub fn record(&self) -> Result<&[u8], Refusal> {
        match self {
            Claim::Record(record) => Ok(record.bytes()),
            Claim::Numbers(..) => Err(Refusal::Care),
        }
    }
}

/// What a gate and a witness have alike. Debug is the table and what Display says.
macro_rules! over_claim {
    ($type:ident, $kind:literal) => {
        impl $type {
            /// Reads a record of this kind: any bytes may be given.
            ///
            /// # Errors
            ///
            /// What reading gives, numbers 1 to 9 and 16, and [`Refusal::OtherKind`] for a record of another kind.
            pub fn from_record(bytes: &[u8]) -> Result<$type, Refusal> {
                $crate::record::Record::read(bytes, &[$kind]).map(|record| $type($crate::claim::Claim::Record(record)))
            }

            /// The record, to be stored and read back.
            ///
            /// # Errors
            ///
            /// [`Refusal::Care`] if a row of the table is not cared for: no record carries it. Its table has one, and the numbers can be
            /// stored beside.
            pub fn record(&self) -> Result<&[u8], Refusal> {
                self.0.record()
            }

            /// The number of inputs, 0 to 8.
            pub fn inputs(&self) -> u32 {
                self.0.with_table().inputs()
            }

            /// The table that this is about.
            pub fn table(&self) -> Table {
                self.0.table()
            }
        }

        impl std::fmt::Debug for $type {
            fn fmt(&self, f: &mut std::fmt::Formatter) -> std::fmt::Result {
                write!(f, "{}({}: {self})", stringify!($type), self.table().described())
            }
        }
    };
}
pub(crate) use over_claim;
