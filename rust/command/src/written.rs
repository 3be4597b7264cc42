//! Tables as they are written: hex digits, binary digits, expressions. An error is in words.

use crate::expression::{Expression, Fault};
use crate::numbers;
use threshold::{Refusal, Table};

/// The text of a line, or nothing if it is blank or a comment.
pub fn content(line: &str) -> Option<&str> {
    Some(line.trim()).filter(|line| !line.is_empty() && !line.starts_with('#'))
}

/// A table by hex digits, with or without `0x`, or by binary digits after `0b`, the highest row first. After a `/` may stand the number of
/// inputs: one hex digit is a table of two inputs, and `2/1` one of one. `inputs` is what the call says of them, if anything. A row that is
/// not cared for has a `-` in place of its binary digit; or the rows cared for stand, like the values, after an `@`: `e0@f7`.
///
/// `0b` begins hex digits too, as those of the table 0b11 of four inputs. Where their number is right for a table they are hex; so a table
/// of one input is written in binary digits only where its inputs are named, as in `0b10/1`: [`note`] says so.
pub fn table(text: &str, inputs: Option<u32>) -> Result<Table, String> {
    if let Some((digits, named)) = text.rsplit_once('/') {
        return table_of_named(text, digits, named, inputs);
    }
    if let Some((values, cares)) = text.split_once('@') {
        return table_with_cares(text, values, cares, inputs);
    }
    let hex_length = match inputs {
        Some(inputs) => text.len() == hex_digits(inputs),
        None => text.len().is_power_of_two(),
    };
    match text.strip_prefix("0b").or_else(|| text.strip_prefix("0B")) {
        Some(digits) if !hex_length || digits.contains('-') => binary(text, digits, inputs),
        _ => hex(text, inputs),
    }
}

/// A table whose inputs stand after a `/`. What the call says of them must be the same.
fn table_of_named(text: &str, digits: &str, named: &str, inputs: Option<u32>) -> Result<Table, String> {
    if digits.contains('/') {
        return Err(format!("{text:?}: a table has one / at most"));
    }
    let named = named.parse().ok().filter(|&named| named <= 8).ok_or_else(|| format!("{text:?}: after the / stand 0 to 8 inputs"))?;
    match inputs {
        Some(inputs) if inputs != named => {
            Err(format!("{text:?} is a table of {}, and -n says {inputs}", numbers::of(named.into(), "input")))
        }
        _ => table(digits, Some(named)),
    }
}

/// A table of these values, of which these rows are cared for.
fn table_with_cares(text: &str, values: &str, cares: &str, inputs: Option<u32>) -> Result<Table, String> {
    if values.contains('-') || cares.contains(['-', '@']) {
        return Err(format!("{text:?}: the rows cared for stand once, after one @"));
    }
    let values = table(values, inputs)?;
    let cares = table(cares, Some(values.inputs())).map_err(|why| format!("the rows cared for: {why}"))?;
    Table::from_cares(values.inputs(), &values.words(), &cares.words()).map_err(|refusal| match stray_row(&values, &cares) {
        Some(row) => format!("{text:?}: row {row} has the value 1 and is not cared for"),
        None => format!("{text:?} is {refusal}"),
    })
}

/// The first row with the value 1 that is not cared for.
fn stray_row(values: &Table, cares: &Table) -> Option<u32> {
    (0..1 << values.inputs()).find(|&row| values.value(row) == Ok(true) && cares.value(row) == Ok(false))
}

/// The table with only those of its rows cared for where an expression is true. What it has on others is left out of account.
pub fn caring(table: &Table, text: &str) -> Result<Table, String> {
    let read = Expression::read(text).map_err(|fault| shown(text, &fault))?;
    if read.highest > table.inputs() {
        let inputs = numbers::of(table.inputs().into(), "input");
        return Err(format!("the rows cared for, {text:?}, name x{}, and the table has {inputs}", read.highest));
    }
    let cared = |row| read.values.value(row) && table.cares_for(row) == Ok(true);
    let value = |row| table.value(row).ok().filter(|_| cared(row));
    Table::from_partial_fn(table.inputs(), value).map_err(|refusal| refusal.to_string())
}

/// What is to be said of a table that reads as hex digits and looks like binary ones: that it is hex, and how it is written in binary.
pub fn note(text: &str, inputs: Option<u32>) -> Option<String> {
    let digits = text.strip_prefix("0b").or_else(|| text.strip_prefix("0B"))?;
    let looks_binary = !digits.is_empty() && digits.bytes().all(|byte| matches!(byte, b'0' | b'1'));
    if inputs.is_some() || !looks_binary || !text.len().is_power_of_two() {
        return None;
    }
    // Of these lengths one alone has as many digits after 0b as a table has rows.
    Some(match digits.len() {
        2 => format!("{text} is read as hex digits; in binary: {text}/1"),
        count => format!("{text} is read as hex digits; {count} binary digits are no table"),
    })
}

/// Why a text is no table, with a hint where it is an expression.
pub fn hinted(text: &str, why: String) -> String {
    match Expression::read(text) {
        Ok(_) => format!("{why}; as an expression it is asked by threshold -e"),
        Err(_) => why,
    }
}

/// The number of hex digits of a table.
fn hex_digits(inputs: u32) -> usize {
    (1usize << inputs).div_ceil(4)
}

fn hex(text: &str, inputs: Option<u32>) -> Result<Table, String> {
    let digits = text.strip_prefix("0x").or_else(|| text.strip_prefix("0X")).unwrap_or(text);
    if let Some(wrong) = digits.chars().find(|c| !c.is_ascii_hexdigit()) {
        return Err(format!("{text:?} is no table: {wrong:?} is not a hex digit"));
    }
    let table = match inputs {
        Some(inputs) => Table::from_hex(inputs, digits),
        None => digits.parse(),
    };
    table.map_err(|refusal| match (refusal, inputs) {
        (Refusal::Digits | Refusal::Inputs, None) => {
            let found = numbers::of(digits.len() as u64, "hex digit");
            format!("{text:?} has {found}: a table of 2 to 8 inputs has 1, 2, 4, 8, 16, 32 or 64")
        }
        (Refusal::Digits, Some(inputs)) => {
            let due = numbers::of(hex_digits(inputs) as u64, "hex digit");
            format!("{text:?} is no table of {}, which has {due}", numbers::of(inputs.into(), "input"))
        }
        _ => format!("{text:?} is {refusal}"),
    })
}

fn binary(text: &str, digits: &str, inputs: Option<u32>) -> Result<Table, String> {
    if let Some(wrong) = digits.chars().find(|c| !matches!(c, '0' | '1' | '-')) {
        return Err(format!("{text:?} is no table: {wrong:?} is not a binary digit"));
    }
    let (count, own) = (digits.len(), digits.len().trailing_zeros());
    if !count.is_power_of_two() || own > 8 {
        let found = numbers::of(count as u64, "binary digit");
        return Err(format!("{text:?} has {found}: a table of 0 to 8 inputs has 1, 2, 4, 8, 16, 32, 64, 128 or 256"));
    }
    if inputs.is_some_and(|inputs| inputs != own) {
        return Err(format!("{text:?} is a table of {}", numbers::of(own.into(), "input")));
    }
    let digit = |row: u32| digits.as_bytes()[count - 1 - row as usize];
    let value = |row| Some(digit(row) == b'1').filter(|_| digit(row) != b'-');
    Table::from_partial_fn(own, value).map_err(|refusal| format!("{text:?} is {refusal}"))
}

/// The table of an expression, of as many inputs as the highest that it names, or of more if `inputs` says so. The error shows the place.
pub fn expression(text: &str, inputs: Option<u32>) -> Result<Table, String> {
    let read = Expression::read(text).map_err(|fault| shown(text, &fault))?;
    let inputs = inputs.unwrap_or(read.highest);
    if inputs < read.highest {
        return Err(format!("the expression {text:?} names x{}, past -n {inputs}", read.highest));
    }
    Table::from_words(inputs, read.values.words()).map_err(|refusal| refusal.to_string())
}

/// The fault under the expression, with a caret at its place.
fn shown(text: &str, fault: &Fault) -> String {
    let line: String = text.chars().map(|c| if c.is_control() { ' ' } else { c }).collect();
    format!("the expression cannot be read\n    {line}\n    {}^ {}", " ".repeat(fault.at), fault.what)
}

/// A table as [`table`] reads it: its hex digits, those of the rows cared for if not all are, and for a table under two inputs their
/// number.
pub fn digits(table: &Table) -> String {
    match table.inputs() {
        inputs @ 0..=1 => format!("{table}/{inputs}"),
        _ => table.to_string(),
    }
}

#[cfg(test)]
mod tests {
    use super::*;

    fn same(text: &str, inputs: u32, words: [u64; 4]) {
        assert_eq!(table(text, None), Ok(Table::from_words(inputs, &words).unwrap()), "{text}");
    }

    #[test]
    fn blank_lines_and_comments_are_left_out() {
        assert_eq!(["", "  \r", "# e8", " e8\r"].map(content), [None, None, None, Some("e8")]);
    }

    #[test]
    fn digits_have_the_highest_row_first() {
        same("8000", 4, [0x8000, 0, 0, 0]);
        same("0xE8", 3, [0xe8, 0, 0, 0]);
        same("0b11101000", 3, [0xe8, 0, 0, 0]);
        same("6", 2, [6, 0, 0, 0]);
        same("0b0110", 2, [6, 0, 0, 0]);
        same("0b1", 0, [1, 0, 0, 0]);
        same("2/1", 1, [2, 0, 0, 0]);
        same("0b10/1", 1, [2, 0, 0, 0]);
        same("1/0", 0, [1, 0, 0, 0]);
        same("e8/3", 3, [0xe8, 0, 0, 0]);
        same(&format!("{:064x}", 1), 8, [1, 0, 0, 0]);
        same(&format!("0b1{}", "0".repeat(255)), 8, [0, 0, 0, 1 << 63]);
    }

    #[test]
    fn hex_digits_that_begin_like_binary_ones_stay_hex() {
        same("0b", 3, [0x0b, 0, 0, 0]);
        same("0b11", 4, [0x0b11, 0, 0, 0]);
        same("0b111011", 5, [0x0b11_1011, 0, 0, 0]);
        (0..0x1_0000).for_each(|word| same(&format!("{word:04x}"), 4, [word, 0, 0, 0]));
    }

    #[test]
    fn a_note_is_of_hex_digits_that_look_binary() {
        let note = |text| note(text, None).unwrap_or_default();
        assert_eq!(note("0b10"), "0b10 is read as hex digits; in binary: 0b10/1");
        assert_eq!(note("0b101010"), "0b101010 is read as hex digits; 6 binary digits are no table");
        assert_eq!(note("0b11101001110100"), "0b11101001110100 is read as hex digits; 14 binary digits are no table");
        for text in ["0b", "0b12", "0b1f", "0b1", "0b1010", "0b10/1", "0b10/4", "e8", "0b102345"] {
            assert_eq!(note(text), "", "{text}");
        }
        assert_eq!(super::note("0b10", Some(1)), None);
        assert_eq!(super::note("0b10", Some(4)), None);
    }

    #[test]
    fn binary_digits_with_their_inputs_are_binary() {
        for inputs in 0..=8 {
            let digits: String = (0..1 << inputs).map(|row| if row % 3 == 0 { '1' } else { '0' }).collect();
            let rows = digits.as_bytes();
            let expected = Table::from_fn(inputs, |row| rows[rows.len() - 1 - row as usize] == b'1').unwrap();
            assert_eq!(table(&format!("0b{digits}/{inputs}"), None), Ok(expected));
        }
    }

    #[test]
    fn the_call_may_name_the_inputs() {
        assert_eq!(table("2", Some(1)), Table::from_words(1, &[2]).map_err(|_| String::new()));
        assert_eq!(table("0b10", Some(1)), table("2/1", None));
        assert_eq!(table("0b10", Some(4)), table("0b10", None));
        assert_eq!(table("0", Some(0)), table("0b0", None));
        assert_eq!(table("e8/3", Some(3)), table("e8", None));
        assert_eq!(table("e8/3", Some(4)).unwrap_err(), "\"e8/3\" is a table of 3 inputs, and -n says 4");
        assert_eq!(table("e8", Some(4)).unwrap_err(), "\"e8\" is no table of 4 inputs, which has 4 hex digits");
        assert_eq!(table("0b1000", Some(3)).unwrap_err(), "\"0b1000\" is a table of 2 inputs");
    }

    #[test]
    fn a_wrong_table_is_told() {
        for (text, told) in [
            ("", "\"\" has 0 hex digits: a table of 2 to 8 inputs has 1, 2, 4, 8, 16, 32 or 64"),
            ("0x", "\"0x\" has 0 hex digits: a table of 2 to 8 inputs has 1, 2, 4, 8, 16, 32 or 64"),
            ("abc", "\"abc\" has 3 hex digits: a table of 2 to 8 inputs has 1, 2, 4, 8, 16, 32 or 64"),
            ("eg", "\"eg\" is no table: 'g' is not a hex digit"),
            ("é", "\"é\" is no table: 'é' is not a hex digit"),
            ("0b102", "\"0b102\" is no table: '2' is not a binary digit"),
            ("0b111", "\"0b111\" has 3 binary digits: a table of 0 to 8 inputs has 1, 2, 4, 8, 16, 32, 64, 128 or 256"),
            ("e8/3/2", "\"e8/3/2\": a table has one / at most"),
            ("/3/", "\"/3/\": a table has one / at most"),
            ("e8/9", "\"e8/9\": after the / stand 0 to 8 inputs"),
        ] {
            assert_eq!(table(text, None).unwrap_err(), told);
        }
        assert!(table(&"0".repeat(128), None)
            .unwrap_err()
            .ends_with("has 128 hex digits: a table of 2 to 8 inputs has 1, 2, 4, 8, 16, 32 or 64"));
    }

    #[test]
    fn rows_are_left_free_by_a_dash_or_by_digits() {
        let example = Table::from_cares(3, &[0xe0], &[0xf7]).unwrap();
        for text in ["0b1110-000", "e0@f7", "0xE0@0xF7", "0b11100000@f7", "e0@0b11110111", "e0@f7/3", "0b1110-000/3"] {
            assert_eq!(table(text, None).as_ref(), Ok(&example), "{text}");
        }
        assert_eq!(table("e0@ff", None), table("e0", None));
        assert_eq!(table("0b1-", None), Table::from_cares(1, &[2], &[2]).map_err(|_| String::new()));
        assert_eq!(table("0b-", None), table("0@0/0", None));
        assert_eq!([table("0b--", Some(1)), table("0@0", Some(1))], [table("0b--", None), table("0b--", None)]);
        for n in 0..=8 {
            let digits: String = (0..1 << n).map(|row| ['1', '-', '0'][row % 3]).collect();
            let place = |row: u32| digits.as_bytes()[(1 << n) - 1 - row as usize];
            let expected = Table::from_partial_fn(n, |row| Some(place(row) == b'1').filter(|_| place(row) != b'-')).unwrap();
            assert_eq!(table(&format!("0b{digits}"), None).as_ref(), Ok(&expected));
            assert_eq!(table(&super::digits(&expected), None), Ok(expected));
        }
    }

    #[test]
    fn wrong_cares_are_told() {
        let once = "the rows cared for stand once, after one @";
        for (text, told) in [
            ("e0@f7@f7", format!("\"e0@f7@f7\": {once}")),
            ("0b1110-000@f7", format!("\"0b1110-000@f7\": {once}")),
            ("e0@0b1111-111", format!("\"e0@0b1111-111\": {once}")),
            ("e0@f", "the rows cared for: \"f\" is no table of 3 inputs, which has 2 hex digits".to_string()),
            ("e0@", "the rows cared for: \"\" is no table of 3 inputs, which has 2 hex digits".to_string()),
            ("e0@fg", "the rows cared for: \"fg\" is no table: 'g' is not a hex digit".to_string()),
            ("0b11-", "\"0b11-\" has 3 binary digits: a table of 0 to 8 inputs has 1, 2, 4, 8, 16, 32, 64, 128 or 256".to_string()),
        ] {
            assert_eq!(table(text, None).unwrap_err(), told);
        }
        for (text, row) in [("e8@f7", 3), ("f8@c6", 3), ("8000@7fff", 15), ("f@0", 0)] {
            assert_eq!(table(text, None).unwrap_err(), format!("{text:?}: row {row} has the value 1 and is not cared for"));
        }
    }

    #[test]
    fn an_expression_says_which_rows_are_cared_for() {
        let read = |text: &str| table(text, None).unwrap();
        assert_eq!(caring(&read("6"), "!(x1 x2)"), Ok(read("6@7")));
        assert_eq!(caring(&read("e8"), "!(x1 x2) + x3"), Ok(read("e0@f7")));
        assert_eq!(caring(&read("e0@f7"), "x1"), Ok(read("a0@a2")));
        assert_eq!(caring(&read("e8"), "1"), Ok(read("e8")));
        assert_eq!(caring(&read("6"), "x3").unwrap_err(), "the rows cared for, \"x3\", name x3, and the table has 2 inputs");
        assert!(caring(&read("6"), "x1 +").unwrap_err().starts_with("the expression cannot be read"));
    }

    #[test]
    fn expressions_are_tables() {
        assert_eq!(expression("x1 x2 + !x3", None), table("8f", None));
        assert_eq!(expression("x1", None), table("2/1", None));
        assert_eq!(expression("x1", Some(3)), table("aa", None));
        assert_eq!(expression("x8", None), table(&format!("{}{}", "f".repeat(32), "0".repeat(32)), None));
        assert_eq!(expression("x3", Some(2)).unwrap_err(), "the expression \"x3\" names x3, past -n 2");
        assert_eq!(
            expression("x1 + + x2", None).unwrap_err(),
            "the expression cannot be read\n    x1 + + x2\n         ^ an input, 0, 1, maj(..) or `(` is missing here"
        );
    }

    #[test]
    fn digits_are_read_again() {
        for text in ["0/0", "1/0", "2/1", "6", "e8", "f888", "0@0/0", "0@2/1", "6@7", "e0@f7", "0000@0000"] {
            assert_eq!(digits(&table(text, None).unwrap()), text);
        }
    }
}
