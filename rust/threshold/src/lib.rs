//! Decides whether one threshold gate can carry a Boolean function of up to eight inputs, by the proved library `libthreshold.a`.
//!
//! A [`Table`] is decided by [`Table::decide`]. The [`Verdict`] needs no trust: a [`Gate`] that has the table's value on every row that is
//! cared for; a balanced [`Witness`], after which no gate exists; or a [`SavedJob`], given up so far, to be carried on. It comes with the
//! corrections made, as an [`Outcome`].
//!
//! ```
//! use threshold::{Table, Verdict};
//!
//! let both: Table = "8".parse()?; // hex digits, as ABC and kitty write them: two inputs, true in row 3
//! let outcome = both.decide();
//! println!("{both}: {}", outcome.verdict); // 8: gate 2 x1 + 3 x2 >= 4
//! let Verdict::Gate(gate) = outcome.verdict else { panic!("no gate") };
//! assert_eq!(gate.weights(), [2, 3]);
//! assert_eq!(gate.threshold(), 4);
//! assert!(gate.realises());
//! assert_eq!(outcome.made, 18);
//! # Ok::<(), threshold::Refusal>(())
//! ```
//!
//! Where some rows never occur a table is made by [`Table::from_cares`]: a gate then needs to agree on the rows cared for alone.
//!
//! ```
//! use threshold::Table;
//!
//! let xor: Table = "6".parse()?;
//! assert_eq!(xor.decide().verdict.to_string(), "no gate 1 2 = 0 3");
//! let never_both = Table::from_cares(2, &[0x6], &[0x7])?; // row 3 never occurs
//! println!("{never_both}: {}", never_both.decide().verdict); // 6@7: gate 2 x1 + 2 x2 >= 1
//! # assert_eq!(never_both.decide().verdict.to_string(), "gate 2 x1 + 2 x2 >= 1");
//! # Ok::<(), threshold::Refusal>(())
//! ```
//!
//! Each value here is a record (docs/FORMAT.md) that the library has read or written, so it can be stored as [`Table::record`] and its
//! like give it; gates and witnesses for tables with a row that is not cared for, which no record carries, are a table's record and
//! numbers. What is proved is the library; this crate adds its declarations, and the text that values are shown as. [`calls`] has the
//! library's functions on slices.
//!
//! # Panics
//!
//! No method panics as long as the library linked is the one that this crate declares: each asks only what its record is right for.

#![warn(missing_docs, clippy::missing_errors_doc, clippy::missing_panics_doc, clippy::undocumented_unsafe_blocks)]

pub mod calls;
mod claim;
mod declared;
mod gate;
mod job;
mod record;
mod refusal;
mod table;
mod witness;

#[cfg(test)]
mod tests;

pub use gate::{Gate, Weights};
pub use job::{Outcome, SavedJob, Verdict};
pub use refusal::Refusal;
pub use table::{InputKind, Table};
pub use witness::{Rows, Witness};

/// The most corrections of one call.
pub const CALL_BUDGET: u32 = 100_000;
/// The most corrections of one job.
pub const CAP: u32 = 1_000_000;
/// Room for the answer of every call.
pub const ROOM: usize = 2048;
