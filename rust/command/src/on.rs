//! Saved jobs, carried on.

use crate::known::Known;
use crate::stream::{self, Item};
use crate::trouble::{self, say, Trouble};
use crate::words::{self, Saved};
use crate::{decide, files, written};
use threshold::Verdict;

/// What is asked.
#[derive(Debug, PartialEq, Eq)]
pub struct Asked {
    pub file: String,
    pub rows: bool,
    pub budget: u32,
}

/// Carries each open job of a file on, decides its tables, and writes the file anew with what is known then. Gates and witnesses stay, and
/// so does a job or a table that comes to a verdict which no record carries. A file without an open job is refused and left as it is,
/// since it may be anyone's.
pub fn carry_on(asked: &Asked) -> Result<u8, Trouble> {
    let bytes = files::read(Some(&asked.file))?;
    let items: Result<Vec<Item>, _> = stream::items(&bytes).collect();
    let items = items.map_err(|refused| Trouble::Failed(refused.text(&asked.file)))?;
    if items.is_empty() {
        return Err(Trouble::Failed(format!("{}: no record is in it", asked.file)));
    }
    if !items.iter().any(is_open) {
        return Err(Trouble::Failed(format!("{0}: no open job is in it; threshold list {0} shows what is", asked.file)));
    }
    let known: Vec<Known> = items.iter().map(|item| carried_on(item.clone(), asked.budget)).collect();
    let records: Vec<u8> =
        known.iter().zip(&items).flat_map(|(known, item)| known.record().or(item.record()).unwrap_or_default()).copied().collect();
    if records != bytes {
        files::write(&asked.file, &records)?;
    }
    let mut status = trouble::DONE;
    for (known, item) in known.iter().zip(&items) {
        status = status.max(decide::status(known));
        let saved = Saved { file: &asked.file, had_job: is_open(item) };
        say(words::verdict(&written::digits(&known.table()), known, asked.rows, Some(saved)))?;
    }
    Ok(status)
}

fn is_open(item: &Item) -> bool {
    matches!(item, Item::Known(Known { verdict: Verdict::Open(_), .. }))
}

fn carried_on(item: Item, budget: u32) -> Known {
    match item {
        Item::Table(table) => Known::decided(&table, budget),
        Item::Known(known) => known.carried_on(budget),
    }
}
