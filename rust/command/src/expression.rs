//! Expressions over the inputs x1 to x8, as tables.
//!
//! ```text
//! or     = xor { ("+" | "|") xor }
//! xor    = and { "^" and }
//! and    = not { ["&" | "*"] not }
//! not    = { "!" | "~" } atom { "'" }
//! atom   = "x1" .. "x8" | "0" | "1" | "(" or ")" | "maj" "(" or { "," or } ")"
//! ```

use crate::values::Values;

/// How deep parentheses may stand in each other.
const DEPTH: usize = 100;

/// What an expression stands for: its value on the 256 rows of eight inputs, and the highest input that it names, or 0.
#[derive(Clone, Copy, Debug, PartialEq, Eq)]
pub struct Expression {
    pub values: Values,
    pub highest: u32,
}

/// What is wrong with an expression, and at which character, from 0 on.
#[derive(Clone, Debug, PartialEq, Eq)]
pub struct Fault {
    pub at: usize,
    pub what: String,
}

impl Expression {
    pub fn read(text: &str) -> Result<Expression, Fault> {
        let mut reader = Reader { text: text.chars().collect(), at: 0, depth: 0, highest: 0 };
        let values = reader.or()?;
        match reader.peek() {
            None => Ok(Expression { values, highest: reader.highest }),
            Some(')') => reader.fault("no `(` is open here"),
            Some(',') => reader.fault("a comma stands only between the arguments of maj"),
            Some(other) => reader.fault(&format!("`{other}` has no meaning here")),
        }
    }
}

struct Reader {
    text: Vec<char>,
    at: usize,
    depth: usize,
    highest: u32,
}

impl Reader {
    /// The next character that is no space.
    fn peek(&mut self) -> Option<char> {
        while self.text.get(self.at).is_some_and(|c| c.is_whitespace()) {
            self.at += 1;
        }
        self.text.get(self.at).copied()
    }

    /// Takes the next character if it is one of these.
    fn take(&mut self, any: &[char]) -> bool {
        let found = self.peek().is_some_and(|c| any.contains(&c));
        self.at += usize::from(found);
        found
    }

    fn fault<T>(&self, what: &str) -> Result<T, Fault> {
        Err(Fault { at: self.at, what: what.to_string() })
    }

    fn or(&mut self) -> Result<Values, Fault> {
        let mut value = self.xor()?;
        while self.take(&['+', '|']) {
            value = value.or(self.xor()?);
        }
        Ok(value)
    }

    fn xor(&mut self) -> Result<Values, Fault> {
        let mut value = self.and()?;
        while self.take(&['^']) {
            value = value.xor(self.and()?);
        }
        Ok(value)
    }

    fn and(&mut self) -> Result<Values, Fault> {
        let mut value = self.not()?;
        while self.take(&['&', '*']) || self.peek().is_some_and(begins_factor) {
            value = value.and(self.not()?);
        }
        Ok(value)
    }

    fn not(&mut self) -> Result<Values, Fault> {
        let mut turns = 0;
        while self.take(&['!', '~']) {
            turns += 1;
        }
        let value = self.atom()?;
        while self.take(&['\'']) {
            turns += 1;
        }
        Ok(if turns % 2 == 1 { value.not() } else { value })
    }

    fn atom(&mut self) -> Result<Values, Fault> {
        match self.peek() {
            Some('x') => self.input(),
            Some('m') => self.majority(),
            Some('(') => self.group(),
            Some(c) if c.is_ascii_digit() => self.constant(),
            Some(c) if c.is_alphabetic() => self.fault("inputs are x1 to x8, and the one function is maj(..)"),
            _ => self.fault("an input, 0, 1, maj(..) or `(` is missing here"),
        }
    }

    /// The digits from here on.
    fn digits(&mut self) -> String {
        let digits: String = self.text[self.at..].iter().take_while(|c| c.is_ascii_digit()).collect();
        self.at += digits.len();
        digits
    }

    fn input(&mut self) -> Result<Values, Fault> {
        let start = self.at;
        self.at += 1;
        match self.digits().parse() {
            Ok(input @ 1..=8) => {
                self.highest = self.highest.max(input);
                Ok(Values::of_input(input))
            }
            _ => Err(Fault { at: start, what: "inputs are x1 to x8".to_string() }),
        }
    }

    fn constant(&mut self) -> Result<Values, Fault> {
        let start = self.at;
        match self.digits().as_str() {
            "0" => Ok(Values::NONE),
            "1" => Ok(Values::NONE.not()),
            _ => Err(Fault { at: start, what: "the constants are 0 and 1".to_string() }),
        }
    }

    fn group(&mut self) -> Result<Values, Fault> {
        self.open()?;
        let value = self.or()?;
        self.close("`)` is missing here")?;
        Ok(value)
    }

    fn majority(&mut self) -> Result<Values, Fault> {
        let start = self.at;
        if !self.text[start..].starts_with(&['m', 'a', 'j']) {
            return self.fault("inputs are x1 to x8, and the one function is maj(..)");
        }
        self.at += 3;
        self.open()?;
        let mut values = vec![self.or()?];
        while self.take(&[',']) {
            values.push(self.or()?);
        }
        self.close("`,` or `)` is missing here")?;
        if values.len() % 2 == 0 {
            return Err(Fault { at: start, what: format!("maj takes an odd number of arguments, and here it has {}", values.len()) });
        }
        Ok(Values::majority(&values))
    }

    fn open(&mut self) -> Result<(), Fault> {
        if !self.take(&['(']) {
            return self.fault("`(` is missing here");
        }
        self.depth += 1;
        if self.depth > DEPTH {
            return self.fault(&format!("more than {DEPTH} parentheses are open here"));
        }
        Ok(())
    }

    fn close(&mut self, missing: &str) -> Result<(), Fault> {
        if !self.take(&[')']) {
            return self.fault(missing);
        }
        self.depth -= 1;
        Ok(())
    }
}

/// Whether a character begins a factor, which then needs no sign of "and" before it.
fn begins_factor(c: char) -> bool {
    c == '(' || c == '!' || c == '~' || c.is_alphanumeric()
}

#[cfg(test)]
mod tests {
    use super::*;

    /// The values on the rows of the inputs that are named, the highest row first.
    fn rows(text: &str) -> String {
        let read = Expression::read(text).unwrap_or_else(|fault| panic!("{text}: {fault:?}"));
        (0..1 << read.highest).rev().map(|row| if read.values.value(row) { '1' } else { '0' }).collect()
    }

    fn fault(text: &str) -> (usize, String) {
        let fault = Expression::read(text).unwrap_err();
        (fault.at, fault.what)
    }

    #[test]
    fn operators_have_their_values() {
        for (text, expected) in [
            ("0", "0"),
            ("1", "1"),
            ("x1", "10"),
            ("!x1", "01"),
            ("~x1", "01"),
            ("x1'", "01"),
            ("!x1'", "10"),
            ("! ! x1", "10"),
            ("x1''", "10"),
            ("x1 x2", "1000"),
            ("x1x2", "1000"),
            ("x1&x2", "1000"),
            ("x1*x2", "1000"),
            ("x1 + x2", "1110"),
            ("x1 | x2", "1110"),
            ("x1 ^ x2", "0110"),
            ("maj(x1,x2,x3)", "11101000"),
            ("maj(x1)", "10"),
            ("maj(1, 0, x1, x2, 1)", "1110"),
            ("x2 0", "0000"),
        ] {
            assert_eq!(rows(text), expected, "{text}");
        }
    }

    #[test]
    fn not_binds_tighter_than_and_then_xor_then_or() {
        for (text, same) in [
            ("x1 x2 + !x3", "(x1 & x2) | (!x3)"),
            ("!x1 x2", "(!x1) x2"),
            ("x1 x2'", "x1 (x2')"),
            ("(x1 x2)'", "!(x1 x2)"),
            ("x1 ^ x2 x3", "x1 ^ (x2 x3)"),
            ("x1 + x2 ^ x3", "x1 + (x2 ^ x3)"),
            ("x1 ^ x2 + x3", "(x1 ^ x2) + x3"),
            ("x1 + x2 x3", "x1 + (x2 x3)"),
            ("x1(x2+x3)(x1+x3')", "x1 & (x2 | x3) & (x1 | !x3)"),
        ] {
            assert_eq!(rows(text), rows(same), "{text}");
        }
        assert_eq!(rows("x1 ^ x2 x3"), "01101010");
    }

    #[test]
    fn the_highest_input_gives_the_number_of_inputs() {
        assert_eq!(Expression::read("x8 + x2").unwrap().highest, 8);
        assert_eq!(Expression::read("1").unwrap().highest, 0);
    }

    #[test]
    fn a_fault_is_at_its_place() {
        let missing = "an input, 0, 1, maj(..) or `(` is missing here";
        assert_eq!(fault(""), (0, missing.into()));
        assert_eq!(fault("x1 + "), (5, missing.into()));
        assert_eq!(fault("x1 + * x2"), (5, missing.into()));
        assert_eq!(fault("x1 x9"), (3, "inputs are x1 to x8".into()));
        assert_eq!(fault("x12"), (0, "inputs are x1 to x8".into()));
        assert_eq!(fault("x99999999999"), (0, "inputs are x1 to x8".into()));
        assert_eq!(fault("x1 2"), (3, "the constants are 0 and 1".into()));
        assert_eq!(fault("(x1"), (3, "`)` is missing here".into()));
        assert_eq!(fault("x1)"), (2, "no `(` is open here".into()));
        assert_eq!(fault("x1, x2"), (2, "a comma stands only between the arguments of maj".into()));
        assert_eq!(fault("x1 @ x2"), (3, "`@` has no meaning here".into()));
        assert_eq!(fault("maj x1"), (4, "`(` is missing here".into()));
        assert_eq!(fault("maj(x1,x2"), (9, "`,` or `)` is missing here".into()));
        assert_eq!(fault("x1 + maj(x1,x2)"), (5, "maj takes an odd number of arguments, and here it has 2".into()));
        assert_eq!(fault("min(x1)"), (0, "inputs are x1 to x8, and the one function is maj(..)".into()));
        assert_eq!(fault("x1 é"), (3, "inputs are x1 to x8, and the one function is maj(..)".into()));
    }

    #[test]
    fn deep_parentheses_are_refused() {
        let nested = |depth| format!("{}x1{}", "(".repeat(depth), ")".repeat(depth));
        assert_eq!(rows(&nested(DEPTH)), "10");
        assert_eq!(fault(&nested(100_000)).1, "more than 100 parentheses are open here");
    }
}
