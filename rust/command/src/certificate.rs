//! Certificates from anyone, as text: `e8: 2 3 3 >= 4`, `e8: 2 x1 + 3 x2 + 3 x3 >= 4`, `f888: 3 12 = 5 10`. An error is in words.

use crate::columns::{self, Side};
use crate::{numbers, written};
use std::collections::BTreeMap;
use std::num::IntErrorKind;
use threshold::{Gate, Refusal, Table, Witness};

/// A table, and what is claimed of it. Whether that holds is not known.
#[derive(Clone, Debug, PartialEq, Eq)]
pub enum Certificate {
    /// A gate.
    Gate(Gate),
    /// Two lists of rows: those that are to be true, and those that are to be false.
    Lists(Table, [Side; 2]),
}

impl Certificate {
    pub fn read(text: &str) -> Result<Certificate, String> {
        let Some((table, claim)) = text.split_once(':') else {
            return Err("a certificate has a colon after its table".to_string());
        };
        let table = written::table(table.trim(), None)?;
        let claim = claim.trim();
        if let Some((weights, threshold)) = claim.split_once(">=") {
            let weights = weights.strip_prefix("gate").unwrap_or(weights);
            return gate(&table, weights.trim(), threshold.trim()).map(Certificate::Gate);
        }
        let Some((trues, falses)) = claim.split_once('=') else {
            return Err("a certificate has >= if it is a gate, or = if it is a witness".to_string());
        };
        let trues = trues.strip_prefix("no gate").unwrap_or(trues);
        Ok(Certificate::Lists(table.clone(), [rows(&table, trues)?, rows(&table, falses)?]))
    }

    /// The record, or why there is none: a witness's record has a count for each row, and the table says on which side that is.
    pub fn record(&self) -> Result<Vec<u8>, String> {
        match self {
            Certificate::Gate(gate) => gate.record().map(<[u8]>::to_vec).map_err(unrecorded),
            Certificate::Lists(table, sides) => match misplaced(table, sides) {
                Some(why) => Err(why),
                None => witness(table, sides)?.record().map(<[u8]>::to_vec).map_err(unrecorded),
            },
        }
    }
}

/// Why a gate or a witness has no record, in words.
fn unrecorded(refusal: Refusal) -> String {
    match refusal {
        Refusal::Care => "no record carries a gate or a witness where rows are not cared for".to_string(),
        _ => refusal.to_string(),
    }
}

/// The first row that is not cared for, or that stands on a wrong side, in words.
pub fn misplaced(table: &Table, sides: &[Side; 2]) -> Option<String> {
    if let Some(row) = sides.iter().flatten().map(|pair| pair.0).find(|&row| table.cares_for(row) != Ok(true)) {
        return Some(format!("row {row} ({}) is not cared for", columns::described(row, table.inputs())));
    }
    let wrong = |value: bool| sides[usize::from(!value)].iter().map(|pair| pair.0).find(|&row| table.value(row) != Ok(value));
    let told = |row: u32, side: &str, value: u32| {
        format!("row {row} ({}) stands {side} the =, and the table is {value} there", columns::described(row, table.inputs()))
    };
    wrong(true).map(|row| told(row, "before", 0)).or_else(|| wrong(false).map(|row| told(row, "after", 1)))
}

/// The witness of two lists without a misplaced row.
pub fn witness(table: &Table, sides: &[Side; 2]) -> Result<Witness, String> {
    Witness::new(table, &sides.concat()).map_err(|refusal| refusal.to_string())
}

fn gate(table: &Table, weights: &str, threshold: &str) -> Result<Gate, String> {
    let inputs = table.inputs();
    let weights = match weights {
        "0" => vec![0; inputs as usize],
        sum if sum.contains('x') => terms(sum, inputs)?,
        list => list.split_whitespace().map(number).collect::<Result<_, _>>()?,
    };
    let weights: Vec<i32> = weights.into_iter().map(clamped).collect();
    Gate::new(table, &weights, clamped(number(threshold)?)).map_err(|refusal| match refusal {
        Refusal::Numbers => {
            format!("{} for a table of {}", numbers::of(weights.len() as u64, "weight"), numbers::of(inputs.into(), "input"))
        }
        _ => refusal.to_string(),
    })
}

/// A number of a certificate, in a type that has room for any sum of them.
fn number(text: &str) -> Result<i128, String> {
    let number: Result<i64, _> = text.parse();
    number.map(i128::from).map_err(|error| match error.kind() {
        IntErrorKind::PosOverflow | IntErrorKind::NegOverflow => format!("{text:?} is too large"),
        _ => format!("{text:?} is not a number"),
    })
}

/// A weight or threshold for the library. It refuses all that is beyond 1,000,000, and so what is past this type too.
fn clamped(number: i128) -> i32 {
    number.clamp(i32::MIN.into(), i32::MAX.into()) as i32
}

/// The weights of a sum like `2 x1 + 3 x2 - x3`; an input that is named twice has both.
fn terms(text: &str, inputs: u32) -> Result<Vec<i128>, String> {
    let mut weights = vec![0i128; inputs as usize];
    let signed = text.replace('-', "+-");
    for text_of_term in signed.strip_prefix('+').unwrap_or(&signed).split('+') {
        let term = term(text_of_term.trim());
        let (sign, size, input) = term.ok_or_else(|| format!("{text:?} is not a sum like 2 x1 + 3 x2 - x3"))?;
        let place = weights.get_mut(input.wrapping_sub(1));
        let place = place.ok_or_else(|| format!("x{input} is no input of the table, which has {inputs}"))?;
        *place += sign * number(size)?;
    }
    Ok(weights)
}

/// The sign, the size and the input of a term like `2 x1`, `2*x1`, `-x1`.
fn term(text: &str) -> Option<(i128, &str, usize)> {
    let (sign, rest) = text.strip_prefix('-').map_or((1, text), |rest| (-1, rest));
    let (size, input) = rest.split_once('x')?;
    let size = size.trim();
    let size = match size.strip_suffix('*').unwrap_or(size).trim_end() {
        "" => "1",
        digits => Some(digits).filter(|digits| digits.bytes().all(|byte| byte.is_ascii_digit()))?,
    };
    Some((sign, size, input.parse().ok()?))
}

/// The rows of one side, each as often as it counts: `3 12`, or `2*3` for row 3 twice.
fn rows(table: &Table, text: &str) -> Result<Side, String> {
    let mut counts = BTreeMap::new();
    for word in text.split_whitespace() {
        let (count, row) = word.split_once('*').unwrap_or(("1", word));
        let (Ok(count), Ok(row)) = (count.parse::<u32>(), row.parse::<u32>()) else {
            return Err(format!("{word:?} is no row, and no count and row like 2*3"));
        };
        if row >> table.inputs() != 0 {
            return Err(format!("row {row} is past the table, whose last is {}", (1 << table.inputs()) - 1));
        }
        let total = counts.entry(row).or_insert(0u32);
        *total = total.saturating_add(count);
    }
    Ok(counts.into_iter().collect())
}

#[cfg(test)]
mod tests {
    use super::*;

    fn weights(text: &str) -> (Vec<i32>, i32) {
        match Certificate::read(text) {
            Ok(Certificate::Gate(gate)) => (gate.weights().to_vec(), gate.threshold()),
            other => panic!("{text}: {other:?}"),
        }
    }

    #[test]
    fn gates_are_read_as_numbers_or_as_an_inequality() {
        for text in
            ["e8: 2 -3 1 >= 4", "0xe8:2 -3 1>=4", "e8: 2 x1 - 3 x2 + x3 >= 4", "e8: gate x3 + 2*x1 -3x2 >= 4", "e8: x1 + x1 -3x2+x3 >= 4"]
        {
            assert_eq!(weights(text), (vec![2, -3, 1], 4), "{text}");
        }
        for text in ["e0@f7: 2 -3 1 >= 4", "0b1110-000: 2 x1 - 3 x2 + x3 >= 4"] {
            assert_eq!(weights(text), (vec![2, -3, 1], 4), "{text}");
        }
        assert_eq!(weights("e8: 0 >= 1"), (vec![0, 0, 0], 1));
        assert_eq!(weights("2/1: -x1 >= -5"), (vec![-1], -5));
        assert_eq!(weights("1/0: >= 0"), (vec![], 0));
    }

    #[test]
    fn terms_of_an_input_are_added_up_exactly() {
        assert_eq!(weights("e8: 4000000000 x1 - 3999999999 x1 + x2 + x3 >= 2"), (vec![1, 1, 1], 2));
        for text in [
            "e8: 4000000000 x1 - 3000000000 x1 + x1 + x2 + x3 >= 2",
            "e8: 3000000000 x1 - 2147483646 x1 + x2 + x3 >= 2",
            "e8: 9223372036854775807 x1 + 9223372036854775807 x1 + x2 + x3 >= 2",
        ] {
            assert!(Certificate::read(text).unwrap_err().starts_with("refused by 7: "), "{text}");
        }
    }

    #[test]
    fn witnesses_are_read_as_rows() {
        let lists = |text: &str| match Certificate::read(text) {
            Ok(Certificate::Lists(_, sides)) => sides,
            other => panic!("{text}: {other:?}"),
        };
        assert_eq!(lists("f888: 3 12 = 5 10"), [vec![(3, 1), (12, 1)], vec![(5, 1), (10, 1)]]);
        assert_eq!(lists("f888: no gate 12 2*3 12 = 5*5"), [vec![(3, 2), (12, 2)], vec![(5, 5)]]);
        assert_eq!(lists("f888: ="), [vec![], vec![]]);
    }

    #[test]
    fn what_is_no_certificate_is_told() {
        for (text, told) in [
            ("e8", "a certificate has a colon after its table"),
            ("e8: 3", "a certificate has >= if it is a gate, or = if it is a witness"),
            ("eg: 3 = 4", "\"eg\" is no table: 'g' is not a hex digit"),
            ("e8: 1 1 >= 2", "2 weights for a table of 3 inputs"),
            ("e8: 1 1 1 >= ", "\"\" is not a number"),
            ("e8: 1 1 y >= 2", "\"y\" is not a number"),
            ("e8: 1 1 99999999999 >= 2", "refused by 7: a weight or the threshold is beyond 1,000,000 either way"),
            ("e8: 1 1 1 >= 99999999999999999999", "\"99999999999999999999\" is too large"),
            ("e8: x1 - 99999999999999999999 x2 >= 2", "\"99999999999999999999\" is too large"),
            ("e8: no gate 1 1 1 >= 2", "\"no\" is not a number"),
            ("f888: gate 3 12 = 5 10", "\"gate\" is no row, and no count and row like 2*3"),
            ("e8/3/3: 1 1 1 >= 2", "\"e8/3/3\": a table has one / at most"),
            ("e8: x1 x2 >= 2", "\"x1 x2\" is not a sum like 2 x1 + 3 x2 - x3"),
            ("e8: x1 + -2 x2 >= 2", "\"x1 + -2 x2\" is not a sum like 2 x1 + 3 x2 - x3"),
            ("e8: x1 + 2 >= 2", "\"x1 + 2\" is not a sum like 2 x1 + 3 x2 - x3"),
            ("e8: 2 3 x1 >= 2", "\"2 3 x1\" is not a sum like 2 x1 + 3 x2 - x3"),
            ("e8: x4 >= 2", "x4 is no input of the table, which has 3"),
            ("e8: 3 = 8", "row 8 is past the table, whose last is 7"),
            ("e8: 3 = -1", "\"-1\" is no row, and no count and row like 2*3"),
            ("e8: 3 = 2*", "\"2*\" is no row, and no count and row like 2*3"),
        ] {
            assert_eq!(Certificate::read(text).unwrap_err(), told, "{text}");
        }
    }

    #[test]
    fn records_need_each_row_on_its_side() {
        let record = |text: &str| Certificate::read(text).unwrap().record();
        assert_eq!(record("e8: 1 1 1 >= 2").unwrap()[0], 2);
        assert_eq!(record("f888: 3 12 = 5 10").unwrap()[0], 3);
        assert_eq!(
            record("f888: 5 = 3").unwrap_err(),
            "row 5 (x1 = 1, x2 = 0, x3 = 1, x4 = 0) stands before the =, and the table is 0 there"
        );
        assert_eq!(
            record("f888: 3 = 12").unwrap_err(),
            "row 12 (x1 = 0, x2 = 0, x3 = 1, x4 = 1) stands after the =, and the table is 1 there"
        );
        assert_eq!(record("e0@f7: 1 = 3").unwrap_err(), "row 3 (x1 = 1, x2 = 1, x3 = 0) is not cared for");
        for certificate in ["e0@f7: 1 1 1 >= 2", "06@0f: 1 2 = 0 3"] {
            assert_eq!(record(certificate).unwrap_err(), "no record carries a gate or a witness where rows are not cared for");
        }
        assert!(record("f888: =").unwrap_err().starts_with("refused by 8"));
        assert!(record("f888: 1000001*3 = 5").unwrap_err().starts_with("refused by 8"));
    }
}
