//! Lines of text to records.

use crate::certificate::Certificate;
use crate::trouble::{self, say, Trouble};
use crate::{files, written};
use std::io::{self, IsTerminal};

/// The record of a line: of a table, or with a colon of a table and a certificate.
fn record(line: &str) -> Result<Vec<u8>, String> {
    if line.contains(':') {
        Certificate::read(line)?.record()
    } else {
        written::table(line, None).map(|table| table.record().to_vec())
    }
}

/// Writes the record of each line, one after another. If a line is wrong, nothing is written.
pub fn pack(file: Option<&str>) -> Result<u8, Trouble> {
    if io::stdout().is_terminal() {
        return Trouble::usage("records are bytes and no text: threshold pack < tables.txt > tables.bin");
    }
    let name = files::name(file);
    let bytes = files::read(file)?;
    let text = String::from_utf8_lossy(&bytes);
    let mut records = Vec::new();
    for (number, line) in (1..).zip(text.lines()) {
        if let Some(line) = written::content(line) {
            records.extend(record(line).map_err(|why| Trouble::Failed(format!("{name}, line {number}: {why}")))?);
        }
    }
    say(records).map(|()| trouble::DONE)
}

#[cfg(test)]
mod tests {
    use super::*;
    use crate::stream;

    #[test]
    fn packed_lines_are_listed_again() {
        let lines = [
            "0/0",
            "2/1",
            "6",
            "e8",
            "0@2/1",
            "6@7",
            "e0@f7",
            "e8: 2 3 3 >= 4",
            "e8: 0 0 0 >= 4",
            "1/0: >= 0",
            "f888: 3 12 = 5 10",
            "f888: 7*3 =",
            "f888: = 5",
        ];
        let records: Vec<u8> = lines.iter().flat_map(|line| record(line).unwrap()).collect();
        let listed: Vec<String> = stream::items(&records).map(|item| item.unwrap().text()).collect();
        assert_eq!(listed, lines);
    }
}
