//! Verdicts in words.

use crate::columns::{self, Side};
use crate::known::Known;
use crate::{line, numbers};
use threshold::{Gate, InputKind, SavedJob, Table, Verdict, Witness, CAP};

/// A file where a verdict is saved, if a record carries it; else it has the open job that the verdict came from, or the table.
#[derive(Clone, Copy)]
pub struct Saved<'a> {
    pub file: &'a str,
    pub had_job: bool,
}

/// What is known of a table, by the name that it was given: a line, and indented what there is to it. `rows` asks for each row, `saved`
/// says where the verdict is saved.
pub fn verdict(title: &str, known: &Known, rows: bool, saved: Option<Saved>) -> String {
    let table = known.table();
    let (verdict, mut lines) = match &known.verdict {
        Verdict::Gate(gate) => ("one gate carries it", gate_lines(gate)),
        Verdict::Witness(witness) => ("no gate carries it, whatever the weights", witness_lines(witness)),
        Verdict::Open(job) => ("given up so far", open_lines(job, saved.map(|saved| saved.file))),
    };
    lines.extend(found(known, &table));
    lines.extend(saved.filter(|_| known.record().is_none()).map(unsaved).unwrap_or_default());
    if rows {
        lines.extend(row_lines(known, &table));
    }
    indented(&format!("{title}, {}: {verdict}", size(&table)), &lines)
}

/// The number of inputs, and that of rows cared for if not all are.
fn size(table: &Table) -> String {
    let inputs = numbers::of(table.inputs().into(), "input");
    match table.is_partial() {
        true => format!("{inputs}, {} of {} cared for", cared_rows(table).count(), numbers::of(1 << table.inputs(), "row")),
        false => inputs,
    }
}

/// The rows that are cared for.
pub fn cared_rows(table: &Table) -> impl Iterator<Item = u32> + Clone + use<'_> {
    (0..1 << table.inputs()).filter(|&row| table.cares_for(row) == Ok(true))
}

/// What a file has of a verdict that no record carries.
fn unsaved(saved: Saved) -> Vec<String> {
    let file = saved.file;
    let mut lines = vec!["not saved: no record carries a gate or a witness where rows are not cared for".to_string()];
    lines.push(match saved.had_job {
        true => format!("{file} has the open job still: threshold on {file} comes to this again, with enough budget"),
        false => format!("{file} has the table"),
    });
    lines
}

/// A line, and others indented below it.
pub fn indented(first: &str, lines: &[String]) -> String {
    let lines: String = lines.iter().map(|line| format!("    {line}\n")).collect();
    format!("{first}\n{lines}")
}

/// The sum of a gate on a row: the weights of the row's true inputs, added up.
pub fn sum(gate: &Gate, row: u32) -> i64 {
    gate.weights().iter().enumerate().filter(|(place, _)| row >> place & 1 == 1).map(|(_, &weight)| i64::from(weight)).sum()
}

fn gate_lines(gate: &Gate) -> Vec<String> {
    vec![gate.to_string(), sums(gate)]
}

/// The lowest sum of a true row and the highest of a false one, of those cared for.
pub fn sums(gate: &Gate) -> String {
    let table = gate.table();
    let of = |value| cared_rows(&table).filter(|&row| table.value(row) == Ok(value)).map(|row| sum(gate, row)).collect::<Vec<i64>>();
    match (of(true).into_iter().min(), of(false).into_iter().max()) {
        (Some(lowest), Some(highest)) => format!("lowest true sum {lowest}, highest false sum {highest}"),
        (Some(lowest), None) => format!("lowest true sum {lowest}, no row is false"),
        (None, Some(highest)) => format!("highest false sum {highest}, no row is true"),
        (None, None) => "no row is cared for".to_string(),
    }
}

fn witness_lines(witness: &Witness) -> Vec<String> {
    let sides = line::sides(witness);
    let mut lines = columns::side_by_side(witness.inputs(), &sides);
    lines.extend(meaning(witness.inputs(), &sides));
    lines
}

/// Why two lists that balance leave no gate.
pub fn meaning(inputs: u32, sides: &[Side; 2]) -> Vec<String> {
    let rows = numbers::of(columns::totals(inputs, &sides[0])[0], "row");
    vec![
        format!("Each list has {rows}, and each input is true equally often in both. So under"),
        "any weights the sums of both lists add up to the same total. But a gate gives".to_string(),
        "each true row a sum of T or more and each false row less than T, so the true".to_string(),
        "rows would have the higher total: there is no such gate.".to_string(),
    ]
}

fn open_lines(job: &SavedJob, saved: Option<&str>) -> Vec<String> {
    let (made, cap) = (numbers::of(job.corrections().into(), "correction"), numbers::grouped(CAP.into()));
    let next = match saved {
        _ if job.corrections() == CAP => "the cap is reached: this job cannot go on".to_string(),
        Some(file) => format!("to go on: threshold on {file}"),
        None => format!("to go on: ask with --save FILE, then `threshold on FILE`; or ask with --budget {CAP}"),
    };
    vec![format!("{made} made, of at most {cap}"), next]
}

/// After how many corrections a verdict was found, if it is one and that is known.
fn found(known: &Known, table: &Table) -> Option<String> {
    match (&known.verdict, known.corrections?) {
        (Verdict::Open(_), _) => None,
        (Verdict::Witness(_), 0) => Some(format!("found at once: {}", binate(table))),
        (Verdict::Gate(_), 0) => Some("found at once".to_string()),
        (_, corrections) => Some(format!("found after {}", numbers::of(corrections.into(), "correction"))),
    }
}

/// The inputs that alone leave no gate.
fn binate(table: &Table) -> String {
    let inputs = (1..).zip(table.kinds()).filter(|(_, kind)| *kind == InputKind::Binate);
    let names: Vec<String> = inputs.map(|(input, _)| format!("x{input}")).collect();
    let (are, each) = if names.len() == 1 { ("is", "it") } else { ("are", "each") };
    format!("{} {are} binate ({each} turns some rows true and others false)", numbers::listed(&names))
}

/// Each row with its value, which is `-` where it is not cared for, and with its sum or how often a witness has it.
fn row_lines(known: &Known, table: &Table) -> Vec<String> {
    let value = |row| match table.cares_for(row) == Ok(true) {
        true => u8::from(table.value(row) == Ok(true)).to_string(),
        false => "-".to_string(),
    };
    match &known.verdict {
        Verdict::Gate(gate) => columns::each_row(table.inputs(), &[("value", &value), ("sum", &|row| sum(gate, row).to_string())]),
        Verdict::Witness(witness) => {
            let times = |row| witness.rows().find(|pair| pair.0 == row).map_or(0, |pair| pair.1).to_string();
            columns::each_row(table.inputs(), &[("value", &value), ("times", &times)])
        }
        Verdict::Open(_) => columns::each_row(table.inputs(), &[("value", &value)]),
    }
}

#[cfg(test)]
mod tests {
    use super::*;
    use crate::known::tests::slow;
    use crate::written;
    use threshold::CALL_BUDGET;

    fn shown(text: &str, rows: bool) -> String {
        verdict(text, &Known::decided(&written::table(text, None).unwrap(), CALL_BUDGET), rows, None)
    }

    #[test]
    fn a_gate_in_words() {
        let expected = "\
e8, 3 inputs: one gate carries it
    2 x1 + 3 x2 + 3 x3 >= 4
    lowest true sum 5, highest false sum 3
    found after 24 corrections
";
        assert_eq!(shown("e8", false), expected);
        let rows = "    row x1 x2 x3 value sum\n      0  0  0  0     0   0\n      1  1  0  0     0   2\n";
        assert!(shown("e8", true).starts_with(&format!("{expected}{rows}")));
        assert!(shown("e8", true).ends_with("\n      7  1  1  1     1   8\n"));
    }

    #[test]
    fn a_table_of_one_value_in_words() {
        assert!(shown("00", false).contains("highest false sum 0, no row is true\n"));
        assert!(
            shown("1/0", false).starts_with("1/0, 0 inputs: one gate carries it\n    0 >= -1\n    lowest true sum 0, no row is false\n")
        );
    }

    #[test]
    fn a_witness_in_words() {
        let expected = "\
f888, 4 inputs: no gate carries it, whatever the weights
    true rows                 false rows
    row times x1 x2 x3 x4     row times x1 x2 x3 x4
      3     1  1  1  0  0       6     1  0  1  1  0
     12     1  0  0  1  1       9     1  1  0  0  1
    sum     2  1  1  1  1     sum     2  1  1  1  1
    Each list has 2 rows, and each input is true equally often in both. So under
    any weights the sums of both lists add up to the same total. But a gate gives
    each true row a sum of T or more and each false row less than T, so the true
    rows would have the higher total: there is no such gate.
    found after 68 corrections
";
        assert_eq!(shown("f888", false), expected);
        assert!(shown("f888", true).ends_with("\n     15  1  1  1  1     1     0\n"));
        assert!(shown("6", false).ends_with("    found at once: x1 and x2 are binate (each turns some rows true and others false)\n"));
    }

    #[test]
    fn rows_that_are_not_cared_for_in_words() {
        let expected = "\
6@7, 2 inputs, 3 of 4 rows cared for: one gate carries it
    2 x1 + 2 x2 >= 1
    lowest true sum 2, highest false sum 0
    found after 9 corrections
    row x1 x2 value sum
      0  0  0     0   0
      1  1  0     1   2
      2  0  1     1   2
      3  1  1     -   4
";
        assert_eq!(shown("6@7", true), expected);
        assert!(shown("06@0f", false).starts_with("06@0f, 3 inputs, 4 of 8 rows cared for: no gate carries it, whatever the weights\n"));
        assert!(shown("06@0f", true).ends_with("\n      7  1  1  1     -     0\n"));
        assert_eq!(
            shown("0@0", false),
            "0@0, 2 inputs, 0 of 4 rows cared for: one gate carries it\n    0 >= 0\n    no row is cared for\n    found at once\n"
        );
        let known = Known::decided(&written::table("6@7", None).unwrap(), CALL_BUDGET);
        let saved = |had_job| verdict("6@7", &known, false, Some(Saved { file: "job", had_job }));
        let told = "\n    not saved: no record carries a gate or a witness where rows are not cared for\n    job has the ";
        assert!(saved(false).ends_with(&format!("{told}table\n")));
        assert!(saved(true).ends_with(&format!("{told}open job still: threshold on job comes to this again, with enough budget\n")));
    }

    #[test]
    fn an_open_job_in_words() {
        let known = Known::decided(&slow(), CALL_BUDGET);
        let expected = "\
slow, 8 inputs: given up so far
    100,000 corrections made, of at most 1,000,000
    to go on: ask with --save FILE, then `threshold on FILE`; or ask with --budget 1000000
";
        assert_eq!(verdict("slow", &known, false, None), expected);
        assert!(verdict("slow", &Known::decided(&slow(), 1), false, None).contains("\n    1 correction made, of at most 1,000,000\n"));
        let saved = Saved { file: "job", had_job: false };
        assert!(verdict("slow", &known, false, Some(saved)).ends_with("\n    to go on: threshold on job\n"));
    }
}
