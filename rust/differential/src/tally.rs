//! How often each call was made and by which numbers it was refused.

use crate::call::Call;
use std::collections::{BTreeMap, BTreeSet};
use std::fmt;

/// The header, which names at each call the refusals that it can give.
const HEADER: &str = include_str!("../../../include/threshold.h");

/// The calls made, by name and by the number of their refusal; 0 stands for an answer.
#[derive(Default)]
pub struct Tally(BTreeMap<(&'static str, u8), u64>);

impl Tally {
    pub fn add(&mut self, call: Call, said: Result<usize, u8>) {
        *self.0.entry((call.name(), said.err().unwrap_or(0))).or_default() += 1;
    }

    /// The calls in all.
    pub fn calls(&self) -> u64 {
        self.0.values().sum()
    }

    /// The numbers by which calls were refused.
    pub fn refusals(&self) -> BTreeSet<u8> {
        self.0.keys().map(|&(_, number)| number).filter(|&number| number > 0).collect()
    }

    /// Fails unless each call has been answered, and refused by each number that the header names at it and by no other.
    pub fn assert_as_named(&self) {
        let named = named();
        let met: BTreeSet<(&str, u8)> = self.0.keys().copied().collect();
        assert_eq!(named.difference(&met).collect::<Vec<_>>(), Vec::<&(&str, u8)>::new(), "in the header, and never compared");
        assert_eq!(met.difference(&named).collect::<Vec<_>>(), Vec::<&(&str, u8)>::new(), "compared, and not in the header");
    }
}

/// The header's calls, each with 0 and with the numbers of its refusals. Reading's are 1 to 9 and 16.
fn named() -> BTreeSet<(&'static str, u8)> {
    let parts: Vec<&str> = HEADER.split("\nint64_t threshold_").collect();
    let mut named = BTreeSet::new();
    for pair in parts.windows(2) {
        let (_, refusals) = pair[0].rsplit_once("Refusals: ").expect("the refusals before a call");
        let (refusals, _) = refusals.split_once('.').expect("a full stop after the refusals");
        let (name, _) = pair[1].split_once('(').expect("arguments after a name");
        named.insert((name, 0));
        for refusal in refusals.split(", ") {
            match refusal {
                "reading's" => named.extend((1..=9).chain([16]).map(|number| (name, number))),
                number => _ = named.insert((name, number.parse().expect("a number"))),
            }
        }
    }
    named
}

impl fmt::Display for Tally {
    /// A line for each call: how often it was made, and how often it was refused by each number.
    fn fmt(&self, f: &mut fmt::Formatter) -> fmt::Result {
        let names: BTreeSet<&str> = self.0.keys().map(|&(name, _)| name).collect();
        for name in names {
            let of_call = || self.0.iter().filter(|(key, _)| key.0 == name);
            write!(f, "{name:13} {:9} ", of_call().map(|(_, times)| times).sum::<u64>())?;
            for ((_, number), times) in of_call().filter(|(key, _)| key.1 > 0) {
                write!(f, " {number}:{times}")?;
            }
            writeln!(f)?;
        }
        Ok(())
    }
}
