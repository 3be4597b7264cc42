//! Records one after another, as files have them.

use crate::known::Known;
use crate::line;
use crate::written;
use threshold::{calls, Gate, Refusal, SavedJob, Table, Witness, ROOM};

/// One record of a stream.
#[derive(Clone, Debug, PartialEq, Eq)]
pub enum Item {
    Table(Table),
    Known(Known),
}

/// A record that is refused: its place in the stream from 1 on, the byte where it begins from 0 on, and why.
#[derive(Clone, Debug, PartialEq, Eq)]
pub struct Refused {
    pub place: usize,
    pub at: usize,
    pub why: Refusal,
}

impl Refused {
    /// The refusal in words, of a stream by its name.
    pub fn text(&self, name: &str) -> String {
        format!("{name}: record {}, at byte {}, is {}", self.place, self.at, self.why)
    }
}

impl Item {
    pub fn read(record: &[u8]) -> Result<Item, Refusal> {
        match calls::kind(record)? {
            1 | 5 => Table::from_record(record).map(Item::Table),
            2 => Gate::from_record(record).map(|gate| Item::Known(Known::gate(gate))),
            3 => Witness::from_record(record).map(|witness| Item::Known(Known::witness(witness))),
            _ => SavedJob::from_record(record).map(|job| Item::Known(Known::open(job))),
        }
    }

    /// The record, which every item that was read has.
    pub fn record(&self) -> Option<&[u8]> {
        match self {
            Item::Table(table) => Some(table.record()),
            Item::Known(known) => known.record(),
        }
    }

    /// The item in a line.
    pub fn text(&self) -> String {
        match self {
            Item::Table(table) => written::digits(table),
            Item::Known(known) => line::text(known),
        }
    }
}

/// The records of a stream in order. After a refused one nothing is read, since where the next begins is not known.
pub fn items(bytes: &[u8]) -> impl Iterator<Item = Result<Item, Refused>> + '_ {
    let (mut place, mut at) = (0, 0);
    std::iter::from_fn(move || {
        if at == bytes.len() {
            return None;
        }
        place += 1;
        let item = first_length(&bytes[at..]).and_then(|length| Ok((length, Item::read(&bytes[at..at + length])?)));
        match item {
            Ok((length, item)) => {
                at += length;
                Some(Ok(item))
            }
            Err(why) => {
                let refused = Refused { place, at, why };
                at = bytes.len();
                Some(Err(refused))
            }
        }
    })
}

/// The length of the record with which bytes begin. A record is right at one length alone: of fewer bytes reading says that they end early,
/// of more that bytes are left. So the length is found by halving.
fn first_length(bytes: &[u8]) -> Result<usize, Refusal> {
    let (mut low, mut high) = (1, bytes.len().min(ROOM));
    while low <= high {
        let length = low + (high - low) / 2;
        match calls::kind(&bytes[..length]) {
            Ok(_) => return Ok(length),
            Err(Refusal::EndsEarly) => low = length + 1,
            Err(Refusal::BytesLeft) => high = length - 1,
            Err(other) => return Err(other),
        }
    }
    Err(Refusal::EndsEarly)
}

#[cfg(test)]
mod tests {
    use super::*;
    use crate::known::tests::slow;
    use std::collections::BTreeSet;
    use threshold::CALL_BUDGET;

    /// Records of all kinds, the shortest and long ones.
    fn records() -> Vec<Vec<u8>> {
        let tables = ["0/0", "2/1", "e8", "f888", "0@0/0", "0b1-", "e0@f7", "f888@fffd"].map(|text| written::table(text, None).unwrap());
        let mut records: Vec<Vec<u8>> = tables.iter().map(|table| table.record().to_vec()).collect();
        for table in tables.iter().chain([&slow(), &written::caring(&slow(), "x1 + x2").unwrap()]) {
            records.extend(Known::decided(table, 1).record().map(<[u8]>::to_vec));
            records.extend(Known::decided(table, CALL_BUDGET).record().map(<[u8]>::to_vec));
        }
        let every: Vec<(u32, u32)> = (0..256).map(|row| (row, 1_000_000)).collect();
        records.push(Witness::new(&slow(), &every).unwrap().record().unwrap().to_vec());
        assert_eq!(records.iter().map(|record| record[0]).collect::<BTreeSet<u8>>(), BTreeSet::from([1, 2, 3, 4, 5, 6]));
        records
    }

    #[test]
    fn records_are_told_apart() {
        let records = records();
        let read: Vec<Item> = items(&records.concat()).map(Result::unwrap).collect();
        assert_eq!(read, records.iter().map(|record| Item::read(record).unwrap()).collect::<Vec<_>>());
        assert_eq!(read[0].text(), "0/0");
        assert_eq!(read[2].text(), "e8");
    }

    #[test]
    fn a_refused_record_ends_the_reading() {
        let stream = [&[1, 2, 0x08][..], &[1, 2, 0x10], &[1, 2, 0x08]].concat();
        let read: Vec<_> = items(&stream).collect();
        assert_eq!(read[1..], [Err(Refused { place: 2, at: 3, why: Refusal::SpareBit })]);
        assert_eq!(items(&[0]).next(), Some(Err(Refused { place: 1, at: 0, why: Refusal::Kind })));
        assert_eq!(items(&[]).next(), None);
    }

    #[test]
    fn a_record_that_is_cut_ends_early() {
        for record in records() {
            for length in 1..record.len() {
                assert_eq!(items(&record[..length]).next(), Some(Err(Refused { place: 1, at: 0, why: Refusal::EndsEarly })));
            }
        }
    }

    #[test]
    fn what_is_refused_alone_is_refused_in_a_stream() {
        for record in records() {
            for at in 0..record.len() {
                for change in [1, 0x7f, 0x80, 0xff] {
                    let mut other = record.clone();
                    other[at] ^= change;
                    let refused = calls::kind(&other).err().filter(|&why| why != Refusal::BytesLeft);
                    if let (Some(why), Some(Err(told))) = (refused, items(&other).next()) {
                        assert_eq!(told.why, why);
                    }
                    assert_eq!(items(&other).next().unwrap().is_err(), refused.is_some(), "{other:?}");
                }
            }
        }
    }
}
