//! The words of a call: options, their values, and what stands alone.

use crate::trouble::Trouble;

/// One word of a call, or an option with its value.
#[derive(Debug, PartialEq, Eq)]
pub enum Word {
    Flag(&'static str),
    Value(&'static str, String),
    Alone(String),
}

/// The words of a call that has these flags, and these options with a value: `--jobs 2` or `--jobs=2`. After `--` every word stands alone.
pub fn read(arguments: &[String], flags: &[&'static str], valued: &[&'static str]) -> Result<Vec<Word>, Trouble> {
    let mut words = Vec::new();
    let mut left = arguments.iter();
    while let Some(argument) = left.next() {
        if argument == "--" {
            words.extend(left.by_ref().cloned().map(Word::Alone));
            break;
        }
        let (name, given) = match argument.split_once('=') {
            Some((name, value)) if name.starts_with("--") => (name, Some(value.to_string())),
            _ => (argument.as_str(), None),
        };
        if let Some(option) = valued.iter().find(|option| **option == name) {
            match given.or_else(|| left.next().cloned()) {
                Some(value) => words.push(Word::Value(option, value)),
                None => return Trouble::usage(format!("after {name} a value is missing")),
            }
        } else if let Some(flag) = flags.iter().find(|flag| **flag == argument) {
            words.push(Word::Flag(flag));
        } else if argument.starts_with('-') && argument.len() > 1 {
            return Trouble::usage(format!("{argument} is not an option here"));
        } else {
            words.push(Word::Alone(argument.clone()));
        }
    }
    Ok(words)
}

/// The number that an option has, within these ends.
pub fn number(option: &str, value: &str, least: u32, most: u32) -> Result<u32, Trouble> {
    let number = value.replace(',', "").parse().ok().filter(|number| (least..=most).contains(number));
    number.ok_or_else(|| Trouble::Usage(format!("{option} is a number from {least} to {most}, and not {value:?}")))
}

#[cfg(test)]
mod tests {
    use super::*;

    fn read(arguments: &[&str]) -> Result<Vec<Word>, Trouble> {
        let arguments: Vec<String> = arguments.iter().map(|argument| argument.to_string()).collect();
        super::read(&arguments, &["--rows"], &["-e", "--jobs"])
    }

    #[test]
    fn options_stand_anywhere() {
        let alone = |text: &str| Word::Alone(text.to_string());
        let words = read(&["e8", "--jobs", "2", "--rows", "-e", "--rows", "--jobs=3", "-", "--", "--rows"]).unwrap();
        let jobs = |value: &str| Word::Value("--jobs", value.to_string());
        let expression = Word::Value("-e", "--rows".to_string());
        assert_eq!(words, [alone("e8"), jobs("2"), Word::Flag("--rows"), expression, jobs("3"), alone("-"), alone("--rows")]);
    }

    #[test]
    fn a_wrong_option_is_told() {
        assert_eq!(read(&["--row"]), Trouble::usage("--row is not an option here"));
        assert_eq!(read(&["--rows=1"]), Trouble::usage("--rows=1 is not an option here"));
        assert_eq!(read(&["e8", "-e"]), Trouble::usage("after -e a value is missing"));
    }

    #[test]
    fn numbers_have_their_ends() {
        assert_eq!(number("-n", "8", 0, 8), Ok(8));
        assert_eq!(number("--budget", "1,000,000", 1, 1_000_000), Ok(1_000_000));
        for wrong in ["9", "-1", "", "two", "99999999999"] {
            assert_eq!(number("-n", wrong, 0, 8), Trouble::usage(format!("-n is a number from 0 to 8, and not {wrong:?}")));
        }
    }
}
