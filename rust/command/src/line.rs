//! A verdict in a line: as the text that `check` and `pack` read, or as JSON.

use crate::known::Known;
use crate::written;
use std::fmt::Write;
use threshold::{Table, Verdict, Witness};

/// The line of what is known: `e8: 2 3 3 >= 4`, `f888: 3 12 = 5 10`, or the table and `open at K 100000`.
pub fn text(known: &Known) -> String {
    format!("{}: {}", written::digits(&known.table()), verdict(&known.verdict))
}

/// The verdict after the table.
pub fn verdict(verdict: &Verdict) -> String {
    match verdict {
        Verdict::Gate(gate) => {
            let weights: String = gate.weights().iter().map(|weight| format!("{weight} ")).collect();
            format!("{weights}>= {}", gate.threshold())
        }
        Verdict::Witness(witness) => witness.to_string(),
        Verdict::Open(job) => job.to_string(),
    }
}

/// What is known as a JSON object on one line. The rows cared for stand there if not all are.
pub fn json(table: &Table, rest: &str) -> String {
    let (digits, inputs) = (table.to_string(), table.inputs());
    match digits.split_once('@') {
        Some((values, cares)) => format!("{{\"table\":\"{values}\",\"cares\":\"{cares}\",\"inputs\":{inputs},{rest}}}"),
        None => format!("{{\"table\":\"{digits}\",\"inputs\":{inputs},{rest}}}"),
    }
}

/// The fields of a JSON object after the table.
pub fn json_fields(known: &Known) -> String {
    let mut fields = match &known.verdict {
        Verdict::Gate(gate) => format!("\"verdict\":\"gate\",\"weights\":{:?},\"threshold\":{}", gate.weights(), gate.threshold()),
        Verdict::Witness(witness) => {
            let [trues, falses] = sides(witness);
            format!("\"verdict\":\"no gate\",\"true\":{},\"false\":{}", pairs(&trues), pairs(&falses))
        }
        Verdict::Open(_) => "\"verdict\":\"open\"".to_string(),
    };
    if let Some(corrections) = known.corrections {
        write!(fields, ",\"corrections\":{corrections}").expect("a string takes all");
    }
    fields.replace(", ", ",")
}

/// The rows of a witness with their counts: those where the table is true, and those where it is false.
pub fn sides(witness: &Witness) -> [Vec<(u32, u32)>; 2] {
    let table = witness.table();
    let (trues, falses) = witness.rows().partition(|&(row, _)| table.value(row) == Ok(true));
    [trues, falses]
}

/// Pairs of a row and its count as JSON.
fn pairs(rows: &[(u32, u32)]) -> String {
    let pairs: Vec<String> = rows.iter().map(|(row, count)| format!("[{row},{count}]")).collect();
    format!("[{}]", pairs.join(","))
}

#[cfg(test)]
mod tests {
    use super::*;
    use crate::known::tests::{slow, SLOW};
    use threshold::CALL_BUDGET;

    fn decided(text: &str) -> Known {
        Known::decided(&written::table(text, None).unwrap(), CALL_BUDGET)
    }

    #[test]
    fn lines_of_text() {
        assert_eq!(text(&decided("e8")), "e8: 2 3 3 >= 4");
        assert_eq!(text(&decided("f888")), "f888: 3 12 = 6 9");
        assert_eq!(text(&decided("2/1")), "2/1: 2 >= 1");
        assert_eq!(text(&decided("1/0")), "1/0: >= -1");
        assert_eq!(text(&decided("0b-110")), "6@7: 2 2 >= 1");
        assert_eq!(text(&decided("06@0f")), "06@0f: 1 2 = 0 3");
        assert_eq!(text(&Known::decided(&slow(), 7)), format!("{SLOW}: open at K 7"));
    }

    #[test]
    fn lines_of_json() {
        let json = |known: &Known| json(&known.table(), &json_fields(known));
        assert_eq!(
            json(&decided("f888")),
            r#"{"table":"f888","inputs":4,"verdict":"no gate","true":[[3,1],[12,1]],"false":[[6,1],[9,1]],"corrections":68}"#
        );
        assert_eq!(json(&decided("2/1")), r#"{"table":"2","inputs":1,"verdict":"gate","weights":[2],"threshold":1,"corrections":5}"#);
        let open = format!(r#"{{"table":"{SLOW}","inputs":8,"verdict":"open","corrections":7}}"#);
        assert_eq!(json(&Known::decided(&slow(), 7)), open);
    }
}
