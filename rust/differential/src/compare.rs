//! Calls made by the library and by the reference on the same bytes, and compared.

use crate::call::Call;
use crate::difference::Difference;
use crate::lent::{Lent, Outcome};
use crate::random::Random;
use crate::read::Read;
use crate::tally::Tally;
use reference::calls::HandedBack;
use reference::refusal::Refusal;
use threshold::ROOM;

/// What the reference gives for a call on a job.
type Handed = Result<HandedBack, Refusal>;

/// Makes the comparisons, and counts what was answered.
pub struct Comparison {
    pub random: Random,
    pub tally: Tally,
}

impl Comparison {
    pub fn new(seed: u64) -> Comparison {
        Comparison { random: Random(seed), tally: Tally::default() }
    }

    /// The outcome of a call, if library and reference agree on it. `room` is how many bytes, weights or counts are lent to be written.
    pub fn compare(&mut self, call: Call, record: &[u8], room: usize) -> Result<Outcome, Difference> {
        let lent = Lent::new(&mut self.random, call, room);
        let expected = call.by_reference(record, lent.clone());
        self.compare_with(call, record, lent, expected)
    }

    /// The outcome of a call, if it is the expected one and what the call reads stays as it was.
    pub fn compare_with(&mut self, call: Call, record: &[u8], lent: Lent, reference: Outcome) -> Result<Outcome, Difference> {
        let read = Read::new(call, record);
        let library = call.by_library(record, lent.clone());
        if !read.is_kept(call, record) {
            return Err(Difference::of_read(call, record));
        }
        if library != reference {
            return Err(Difference::of_calls(call, record, &lent, &library, &reference));
        }
        self.tally.add(call, library.said);
        Ok(library)
    }

    /// The outcome of a call on a job, if it is the reference's in any room, or a refusal by 12 where that is longer than the room.
    pub fn compare_handing(&mut self, call: Call, record: &[u8], answer: Handed, room: usize) -> Result<Outcome, Difference> {
        let answer = answer.and_then(|handed| if handed.bytes.len() <= room { Ok(handed) } else { Err(Refusal::BufferTooShort) });
        let lent = Lent::new(&mut self.random, call, room);
        let expected = lent.clone().handing(answer);
        self.compare_with(call, record, lent, expected)
    }

    /// The outcome of a call that finds a gate or a witness, if it is what `finding` makes of what is lent.
    pub fn compare_finding(
        &mut self,
        call: Call,
        record: &[u8],
        room: usize,
        finding: impl FnOnce(Lent) -> Outcome,
    ) -> Result<Outcome, Difference> {
        let lent = Lent::new(&mut self.random, call, room);
        let expected = finding(lent.clone());
        self.compare_with(call, record, lent, expected)
    }

    /// The outcome of a call with room for every answer. It is compared also in no room and, if it is answered, in rooms about the answer's
    /// length.
    pub fn compare_in_rooms(&mut self, call: Call, record: &[u8]) -> Result<Outcome, Difference> {
        let outcome = self.compare(call, record, ROOM)?;
        self.compare(call, record, 0)?;
        if let Ok(length) = outcome.said {
            for room in [length.saturating_sub(1), length, length + 1] {
                self.compare(call, record, room)?;
            }
        }
        Ok(outcome)
    }

    /// Compares a call, and whether it writes this record.
    pub fn compare_writing(&mut self, call: Call, record: &[u8], room: usize, written: &[u8]) -> Result<(), Difference> {
        let outcome = self.compare(call, record, room)?;
        match outcome.written() {
            Some(found) if found == written => Ok(()),
            found => Err(Difference::of_record(call, written, found)),
        }
    }
}
