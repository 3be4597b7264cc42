//! Tables of the call, each decided and told in words.

use crate::files;
use crate::known::Known;
use crate::trouble::{self, say, Trouble};
use crate::words::{self, Saved};
use std::io::{self, Write};
use threshold::{Table, Verdict};

/// What is asked.
#[derive(Debug, PartialEq, Eq)]
pub struct Asked {
    /// Tables, each by the name that its answer has.
    pub tables: Vec<(String, Table)>,
    /// What is to be said of how they were read.
    pub notes: Vec<String>,
    pub rows: bool,
    pub save: Option<String>,
    pub budget: u32,
}

/// Tells each verdict as soon as it is there; or where they are to be saved, saves their records, one after another, and then tells them.
/// In place of a verdict that no record carries the table is saved.
pub fn decide(asked: &Asked) -> Result<u8, Trouble> {
    for note in &asked.notes {
        let _ = writeln!(io::stderr(), "threshold: {note}");
    }
    let decided = asked.tables.iter().map(|(title, table)| (title, Known::decided(table, asked.budget)));
    let Some(file) = &asked.save else { return tell(asked, decided) };
    let decided: Vec<_> = decided.collect();
    let record = |known: &Known| known.record().map_or_else(|| known.table().record().to_vec(), <[u8]>::to_vec);
    let records: Vec<u8> = decided.iter().flat_map(|(_, known)| record(known)).collect();
    files::write(file, &records)?;
    tell(asked, decided.into_iter())
}

fn tell<'a>(asked: &Asked, decided: impl Iterator<Item = (&'a String, Known)>) -> Result<u8, Trouble> {
    let mut status = trouble::DONE;
    let saved = asked.save.as_deref().map(|file| Saved { file, had_job: false });
    for (title, known) in decided {
        status = status.max(self::status(&known));
        say(words::verdict(title, &known, asked.rows, saved))?;
    }
    Ok(status)
}

/// The status of a verdict. Of several the highest is the call's: 3 if one is open, or 1 if one has no gate, or 0.
pub fn status(known: &Known) -> u8 {
    match known.verdict {
        Verdict::Gate(_) => trouble::DONE,
        Verdict::Witness(_) => trouble::NO_GATE,
        Verdict::Open(_) => trouble::OPEN,
    }
}
