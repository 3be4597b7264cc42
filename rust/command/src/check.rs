//! Certificates from anyone, checked by the library, and where one fails, in words.

use crate::certificate::{misplaced, witness, Certificate};
use crate::columns::{self, Side};
use crate::trouble::{self, say, Trouble};
use crate::{files, numbers, words, written};
use std::io::{BufRead, BufReader, BufWriter, IsTerminal, Read, Write};
use std::path::Path;
use threshold::{Gate, Table};

/// Checks each certificate and tells it in words; where none is given, checks those of standard input, a line each.
pub fn check(certificates: &[String]) -> Result<u8, Trouble> {
    if certificates.is_empty() && std::io::stdin().is_terminal() {
        return Trouble::usage("no certificate: try `threshold check 'e8: 1 1 1 >= 2'`");
    }
    if certificates.is_empty() {
        let mut output = BufWriter::new(std::io::stdout());
        return check_lines(files::open(None)?, &mut output, &mut std::io::stderr());
    }
    let told = |text: &String| {
        let told = Certificate::read(text).and_then(|certificate| checked(&certificate));
        told.map_err(|why| Trouble::Usage(format!("{text:?}: {why}{}", hint(text))))
    };
    let told: Vec<(bool, Vec<String>)> = certificates.iter().map(told).collect::<Result<_, _>>()?;
    let mut status = trouble::DONE;
    for (text, (holds, lines)) in certificates.iter().zip(&told) {
        status = status.max(if *holds { trouble::DONE } else { trouble::NO_GATE });
        say(words::indented(text.trim(), lines))?;
    }
    Ok(status)
}

/// How a file is checked, if this looks like one.
fn hint(text: &str) -> &'static str {
    let file = !text.contains(':') && (text == "-" || Path::new(text).exists());
    if file {
        "; a file is checked by threshold check <FILE"
    } else {
        ""
    }
}

/// Checks a certificate a line, writes `holds` or `fails` before each, and tells and counts lines that are none.
fn check_lines(input: impl Read, output: &mut impl Write, errors: &mut impl Write) -> Result<u8, Trouble> {
    let (mut holding, mut failing, mut wrong) = (0, 0, 0);
    for (number, line) in (1..).zip(BufReader::new(input).split(b'\n')) {
        let line = line.map_err(Trouble::at("standard input"))?;
        let line = String::from_utf8_lossy(&line);
        let Some(text) = written::content(&line) else { continue };
        match Certificate::read(text).and_then(|certificate| holds(&certificate)) {
            Ok(holds) => {
                *if holds { &mut holding } else { &mut failing } += 1;
                let word = if holds { "holds" } else { "fails" };
                writeln!(output, "{word} {text}").map_err(Trouble::at("standard output"))?;
            }
            Err(why) => {
                wrong += 1;
                let _ = writeln!(errors, "threshold: line {number}: {why}");
            }
        }
    }
    output.flush().map_err(Trouble::at("standard output"))?;
    let [hold, fail] = [holding, failing].map(numbers::grouped);
    let _ = writeln!(
        errors,
        "{}: {hold} hold, {fail} fail; {}",
        numbers::of(holding + failing, "certificate"),
        numbers::of(wrong, "wrong line")
    );
    Ok(if wrong > 0 { trouble::FAILED } else { u8::from(failing > 0) * trouble::NO_GATE })
}

/// Whether a certificate holds.
fn holds(certificate: &Certificate) -> Result<bool, String> {
    match certificate {
        Certificate::Gate(gate) => Ok(gate.realises()),
        Certificate::Lists(table, sides) => Ok(misplaced(table, sides).is_none() && witness(table, sides)?.balances()),
    }
}

/// Whether a certificate holds, and that in words.
fn checked(certificate: &Certificate) -> Result<(bool, Vec<String>), String> {
    match certificate {
        Certificate::Gate(gate) if gate.realises() => Ok((true, gate_holds(gate))),
        Certificate::Gate(gate) => Ok((false, gate_fails(gate))),
        Certificate::Lists(table, sides) => match misplaced(table, sides) {
            Some(why) => Ok((false, lines(&format!("does not hold: {why}"), table, sides))),
            None if witness(table, sides)?.balances() => {
                let mut lines = lines("holds: no gate carries the table, whatever the weights", table, sides);
                lines.extend(words::meaning(table.inputs(), sides));
                Ok((true, lines))
            }
            None => Ok((false, lines(&format!("does not hold: {}", unbalanced(table, sides)), table, sides))),
        },
    }
}

fn gate_holds(gate: &Gate) -> Vec<String> {
    let table = gate.table();
    let cared_for = if table.is_partial() { " that is cared for" } else { "" };
    let rows = match words::cared_rows(&table).count() as u64 {
        1 => format!("its one row{cared_for}"),
        rows => format!("each of {}{}", numbers::of(rows, "row"), cared_for.replace("is", "are")),
    };
    vec![format!("holds: the gate has the table's value on {rows}"), words::sums(gate)]
}

fn gate_fails(gate: &Gate) -> Vec<String> {
    let table = gate.table();
    let rows: Vec<u32> = words::cared_rows(&table).collect();
    let wrong: Vec<u32> = rows.iter().copied().filter(|&row| gate.value(row) != table.value(row)).collect();
    let cared_for = if table.is_partial() { " cared for" } else { "" };
    let (row, of) = (wrong[0], format!("{}{cared_for}", numbers::of(rows.len() as u64, "row")));
    let (sum, threshold) = (words::sum(gate, row), gate.threshold());
    let (relation, value) = if gate.value(row) == Ok(true) { ("at least", 0) } else { ("below", 1) };
    let first = if wrong.len() == 1 { "which is" } else { "the first is" };
    vec![
        format!("does not hold: the gate differs from the table on {} of {of}, {first} row {row}", wrong.len()),
        format!(
            "row {row} ({}): the sum is {sum}, {relation} {threshold}, and the table is {value}",
            columns::described(row, gate.inputs())
        ),
    ]
}

/// A line, and the two lists.
fn lines(first: &str, table: &Table, sides: &[Side; 2]) -> Vec<String> {
    let mut lines = vec![first.to_string()];
    lines.extend(columns::side_by_side(table.inputs(), sides));
    lines
}

/// The first total in which two lists differ.
fn unbalanced(table: &Table, sides: &[Side; 2]) -> String {
    let [trues, falses] = [0, 1].map(|side| columns::totals(table.inputs(), &sides[side]));
    let differs = (0..trues.len()).find(|&place| trues[place] != falses[place]);
    match differs {
        Some(0) => format!("{} against {} false", numbers::of(trues[0], "true row"), numbers::grouped(falses[0])),
        Some(input) => {
            let times = |total| numbers::of(total, "time");
            format!("x{input} is true {} in the true rows and {} in the false ones", times(trues[input]), times(falses[input]))
        }
        None => "the library says that it does not balance".to_string(),
    }
}

#[cfg(test)]
mod tests {
    use super::*;

    fn told(text: &str) -> (bool, Vec<String>) {
        checked(&Certificate::read(text).unwrap()).unwrap()
    }

    #[test]
    fn a_gate_holds_or_fails_on_a_row() {
        let (holds, lines) = told("e8: 2 3 3 >= 4");
        assert!(holds);
        assert_eq!(lines, ["holds: the gate has the table's value on each of 8 rows", "lowest true sum 5, highest false sum 3"]);
        let (holds, lines) = told("e8: 1 1 1 >= 1");
        assert!(!holds);
        assert_eq!(lines[0], "does not hold: the gate differs from the table on 3 of 8 rows, the first is row 1");
        assert_eq!(lines[1], "row 1 (x1 = 1, x2 = 0, x3 = 0): the sum is 1, at least 1, and the table is 0");
        assert_eq!(told("1/0: >= 0").1[0], "holds: the gate has the table's value on its one row");
        let (holds, lines) = told("e0@f7: 1 1 1 >= 2");
        assert!(holds);
        assert_eq!(lines[0], "holds: the gate has the table's value on each of 7 rows that are cared for");
        assert_eq!(told("e0@ff: 1 1 1 >= 2").1[0], "does not hold: the gate differs from the table on 1 of 8 rows, which is row 3");
        let (_, lines) = told("e0@f7: 1 1 1 >= 1");
        assert_eq!(lines[0], "does not hold: the gate differs from the table on 3 of 7 rows cared for, the first is row 1");
        assert_eq!(told("0b1-: 1 >= 1").1[0], "holds: the gate has the table's value on its one row that is cared for");
        assert_eq!(
            told("0@0: 7 7 >= 1").1,
            ["holds: the gate has the table's value on each of 0 rows that are cared for", "no row is cared for"]
        );
        let (_, lines) = told("8: 1 1 >= 3");
        assert_eq!(lines[0], "does not hold: the gate differs from the table on 1 of 4 rows, which is row 3");
        assert_eq!(lines[1], "row 3 (x1 = 1, x2 = 1): the sum is 2, below 3, and the table is 1");
    }

    #[test]
    fn a_witness_holds_or_fails_at_a_row_or_a_total() {
        assert!(told("f888: 3 12 = 5 10").0);
        assert!(told("f888: 2*3 2*12 = 2*5 2*10").0);
        assert!(told("06@0f: 1 2 = 0 3").0 && told("0b----0110: 1 2 = 0 3").0);
        assert_eq!(told("06@0f: 1 2 = 0 7").1[0], "does not hold: row 7 (x1 = 1, x2 = 1, x3 = 1) is not cared for");
        for (text, why) in [
            ("f888: 3 12 = 5 9", "x1 is true 1 time in the true rows and 2 times in the false ones"),
            ("f888: 3 12 = 5", "2 true rows against 1 false"),
            ("f888: 1000*3 = ", "1,000 true rows against 0 false"),
            ("f888: 3 = 12", "row 12 (x1 = 0, x2 = 0, x3 = 1, x4 = 1) stands after the =, and the table is 1 there"),
        ] {
            let (holds, lines) = told(text);
            assert!(!holds, "{text}");
            assert_eq!(lines[0], format!("does not hold: {why}"));
        }
    }

    #[test]
    fn a_file_is_hinted_at() {
        let hint = "; a file is checked by threshold check <FILE";
        assert_eq!(["-", "/", "e8", "e8: 1"].map(self::hint), [hint, hint, "", ""]);
    }

    #[test]
    fn lines_are_checked_and_counted() {
        let lines = |input: &str| {
            let (mut output, mut errors) = (Vec::new(), Vec::new());
            let status = check_lines(input.as_bytes(), &mut output, &mut errors);
            (status, String::from_utf8(output).unwrap(), String::from_utf8(errors).unwrap())
        };
        let (status, output, errors) = lines("e8: 1 1 1 >= 2\n\n# none\ne8: 1 1 1 >= 1\r\nf888: 3 12 = 5 10\nf888: 3 = 12");
        assert_eq!(output, "holds e8: 1 1 1 >= 2\nfails e8: 1 1 1 >= 1\nholds f888: 3 12 = 5 10\nfails f888: 3 = 12\n");
        assert_eq!((status, errors.as_str()), (Ok(1), "4 certificates: 2 hold, 2 fail; 0 wrong lines\n"));
        let (status, _, errors) = lines("e8: 1 1 1 >= 2\ne8\n");
        let told = "threshold: line 2: a certificate has a colon after its table\n";
        assert_eq!((status, errors), (Ok(4), format!("{told}1 certificate: 1 hold, 0 fail; 1 wrong line\n")));
        assert_eq!(lines("").0, Ok(0));
    }

    #[test]
    fn no_row_at_all_is_refused() {
        assert!(checked(&Certificate::read("f888: =").unwrap()).unwrap_err().starts_with("refused by 8"));
    }
}
