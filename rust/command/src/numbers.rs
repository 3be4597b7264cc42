//! Numbers in words.

/// A number with a comma between its thousands.
pub fn grouped(number: u64) -> String {
    let digits = number.to_string();
    let comma = |place: usize| if place > 0 && (digits.len() - place).is_multiple_of(3) { "," } else { "" };
    digits.char_indices().map(|(place, digit)| format!("{}{digit}", comma(place))).collect()
}

/// A number of things, by the word for one of them.
pub fn of(number: u64, one: &str) -> String {
    format!("{} {one}{}", grouped(number), if number == 1 { "" } else { "s" })
}

/// A list with commas and an "and".
pub fn listed(items: &[String]) -> String {
    match items {
        [] => String::new(),
        [one] => one.clone(),
        [most @ .., last] => format!("{} and {last}", most.join(", ")),
    }
}

#[cfg(test)]
mod tests {
    use super::*;

    #[test]
    fn thousands_are_set_apart() {
        for (number, text) in [(0, "0"), (999, "999"), (1000, "1,000"), (100_000, "100,000"), (1_234_567, "1,234,567")] {
            assert_eq!(grouped(number), text);
        }
    }

    #[test]
    fn one_is_singular() {
        assert_eq!((of(0, "row"), of(1, "row"), of(1200, "row")), ("0 rows".into(), "1 row".into(), "1,200 rows".into()));
    }

    #[test]
    fn lists_end_in_and() {
        let items = ["x1", "x2", "x3"].map(String::from);
        assert_eq!((listed(&items[..1]), listed(&items[..2]), listed(&items)), ("x1".into(), "x1 and x2".into(), "x1, x2 and x3".into()));
    }
}
