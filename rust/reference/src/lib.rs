//! The threshold cell verdict, written from document 01 and document 02, §1 to §3, and from nothing else: what the proved library and the
//! report are compared with. What the documents do not have, the shape of the C interface, its numbers from 100 on and tables as digits and
//! words, is in [`calls`] and [`notation`], from the text of `include/threshold.h`.
//!
//! It is naive on purpose. Each function says what the document's sentence says, sums are made anew for each row, and nothing
//! is kept from one step to the next. Tables, gates, witnesses and jobs come from records here, so what the document says of
//! them "as an array" (places past n, rows past the table) has no counterpart.

pub mod calls;
pub mod gate;
pub mod job;
pub mod notation;
pub mod record;
pub mod refusal;
pub mod report;
pub mod table;
pub mod witness;

#[cfg(test)]
mod cared;
#[cfg(test)]
mod header;
#[cfg(test)]
mod marked;
