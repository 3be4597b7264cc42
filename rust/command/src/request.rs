//! What a call asks for.

use crate::options::{self, number, Word};
use crate::trouble::Trouble;
use crate::{decide, many, on, written};
use std::thread::available_parallelism;
use threshold::{Table, CALL_BUDGET, CAP};

#[derive(Debug, PartialEq, Eq)]
pub enum Request {
    Help,
    Version,
    Decide(decide::Asked),
    On(on::Asked),
    /// Certificates, or none for those of standard input.
    Check(Vec<String>),
    Many(many::Asked),
    /// A file, or none for standard input; so the next.
    Pack(Option<String>),
    List(Option<String>),
}

impl Request {
    pub fn read(arguments: &[String]) -> Result<Request, Trouble> {
        let options: Vec<&str> = arguments.iter().map(String::as_str).take_while(|argument| *argument != "--").collect();
        if options.contains(&"--help") || options.contains(&"-h") || options.first() == Some(&"help") {
            return Ok(Request::Help);
        }
        match options.as_slice() {
            ["--version", ..] => Ok(Request::Version),
            ["on", ..] => read_on(&arguments[1..]),
            ["check", ..] => read_check(&arguments[1..]),
            ["many", ..] => read_many(&arguments[1..]),
            ["pack", ..] => read_file(&arguments[1..]).map(Request::Pack),
            ["list", ..] => read_file(&arguments[1..]).map(Request::List),
            _ => read_tables(arguments),
        }
    }
}

fn budget(value: &str) -> Result<u32, Trouble> {
    number("--budget", value, 1, CAP)
}

fn read_tables(arguments: &[String]) -> Result<Request, Trouble> {
    let words = options::read(arguments, &["--rows"], &["-n", "-e", "--cares", "--save", "--budget"])?;
    let mut asked = decide::Asked { tables: Vec::new(), notes: Vec::new(), rows: false, save: None, budget: CALL_BUDGET };
    let (mut inputs, mut cares) = (None, None);
    for word in &words {
        match word {
            Word::Flag(_) => asked.rows = true,
            Word::Value("--cares", text) => cares = Some(text.as_str()),
            Word::Value("-n", value) => inputs = Some(number("-n", value, 0, 8)?),
            Word::Value("--save", file) => asked.save = Some(file.clone()),
            Word::Value("--budget", value) => asked.budget = budget(value)?,
            Word::Value(..) | Word::Alone(_) => {}
        }
    }
    for word in &words {
        match word {
            Word::Alone(text) => {
                asked.tables.push(digits(text, inputs, cares)?);
                asked.notes.extend(written::note(text, inputs));
            }
            Word::Value("-e", text) => asked.tables.push(expression(text, inputs, cares)?),
            _ => {}
        }
    }
    if asked.tables.is_empty() {
        return Trouble::usage("no table: try `threshold e8`, or `threshold -e 'x1 x2 + !x3'`");
    }
    Ok(Request::Decide(asked))
}

/// The table with only those rows cared for that the call names, if it names them.
fn caring(table: Table, cares: Option<&str>) -> Result<Table, Trouble> {
    cares.map_or(Ok(table.clone()), |cares| written::caring(&table, cares).map_err(Trouble::Usage))
}

/// A table by its digits, and its name in the answer.
fn digits(text: &str, inputs: Option<u32>, cares: Option<&str>) -> Result<(String, Table), Trouble> {
    let table = written::table(text, inputs).map_err(|why| Trouble::Usage(written::hinted(text, why)))?;
    let table = caring(table, cares)?;
    Ok((written::digits(&table), table))
}

/// The table of an expression, and its name in the answer.
fn expression(text: &str, inputs: Option<u32>, cares: Option<&str>) -> Result<(String, Table), Trouble> {
    let table = caring(written::expression(text, inputs).map_err(Trouble::Usage)?, cares)?;
    Ok((format!("{} ({text})", written::digits(&table)), table))
}

fn read_on(arguments: &[String]) -> Result<Request, Trouble> {
    let mut asked = on::Asked { file: String::new(), rows: false, budget: CALL_BUDGET };
    let mut files = Vec::new();
    for word in options::read(arguments, &["--rows"], &["--budget"])? {
        match word {
            Word::Flag(_) => asked.rows = true,
            Word::Value(_, value) => asked.budget = budget(&value)?,
            Word::Alone(file) => files.push(file),
        }
    }
    let missing = "on: a file is missing, as --save has written it; standard input cannot be written anew";
    asked.file = one(files)?.ok_or_else(|| Trouble::Usage(missing.to_string()))?;
    Ok(Request::On(asked))
}

fn read_check(arguments: &[String]) -> Result<Request, Trouble> {
    let alone = |word| match word {
        Word::Alone(text) => text,
        other => unreachable!("{other:?}"),
    };
    Ok(Request::Check(options::read(arguments, &[], &[])?.into_iter().map(alone).collect()))
}

fn read_many(arguments: &[String]) -> Result<Request, Trouble> {
    let cores = available_parallelism().map_or(1, |cores| cores.get() as u32);
    let mut asked = many::Asked { file: None, jobs: cores, json: false, budget: CALL_BUDGET };
    let mut files = Vec::new();
    for word in options::read(arguments, &["--json"], &["--jobs", "--budget"])? {
        match word {
            Word::Flag(_) => asked.json = true,
            Word::Value("--jobs", value) => asked.jobs = number("--jobs", &value, 1, 1024)?,
            Word::Value(_, value) => asked.budget = budget(&value)?,
            Word::Alone(file) => files.push(file),
        }
    }
    asked.file = one(files)?;
    Ok(Request::Many(asked))
}

/// The file of a call that has no options.
fn read_file(arguments: &[String]) -> Result<Option<String>, Trouble> {
    let files = options::read(arguments, &[], &[])?;
    one(files.into_iter().filter_map(|word| if let Word::Alone(file) = word { Some(file) } else { None }).collect())
}

/// One file or none; `-` is standard input.
fn one(files: Vec<String>) -> Result<Option<String>, Trouble> {
    match files.as_slice() {
        [] => Ok(None),
        [file] => Ok(Some(file.clone()).filter(|file| file != "-")),
        [_, more, ..] => Trouble::usage(format!("{more:?} is one file too many")),
    }
}

#[cfg(test)]
mod tests {
    use super::*;

    fn read(arguments: &[&str]) -> Result<Request, Trouble> {
        Request::read(&arguments.iter().map(|argument| argument.to_string()).collect::<Vec<_>>())
    }

    #[test]
    fn tables_and_expressions_keep_their_order() {
        let Ok(Request::Decide(asked)) = read(&["0xE8", "-e", "x1 x2 + !x3", "6", "--rows", "--save", "job", "--budget=7"]) else {
            panic!()
        };
        let titles: Vec<&str> = asked.tables.iter().map(|(title, _)| title.as_str()).collect();
        assert_eq!(titles, ["e8", "8f (x1 x2 + !x3)", "6"]);
        assert_eq!((asked.rows, asked.save.as_deref(), asked.budget), (true, Some("job"), 7));
    }

    #[test]
    fn the_number_of_inputs_is_for_all_tables() {
        let Ok(Request::Decide(asked)) = read(&["2", "-n", "1", "-e", "x1"]) else { panic!() };
        assert!(asked.tables.iter().all(|(_, table)| table.inputs() == 1));
        assert_eq!([&asked.tables[0].0, &asked.tables[1].0], ["2/1", "2/1 (x1)"]);
        assert!(matches!(read(&["e8", "-n", "9"]), Err(Trouble::Usage(_))));
    }

    #[test]
    fn the_rows_cared_for_are_for_all_tables() {
        let Ok(Request::Decide(asked)) = read(&["6", "--cares", "!(x1 x2)", "a@b", "-e", "x1 + x2"]) else { panic!() };
        let titles: Vec<&str> = asked.tables.iter().map(|(title, _)| title.as_str()).collect();
        assert_eq!(titles, ["6@7", "2@3", "6@7 (x1 + x2)"]);
        assert!(matches!(read(&["6", "--cares", "x3"]), Err(Trouble::Usage(_))));
        assert!(matches!(read(&["6", "--cares", "x1 +"]), Err(Trouble::Usage(_))));
        assert!(matches!(read(&["many", "--cares", "x1"]), Err(Trouble::Usage(_))));
    }

    #[test]
    fn each_call_has_its_options() {
        assert_eq!(read(&["on", "job", "--budget", "9"]), Ok(Request::On(on::Asked { file: "job".into(), rows: false, budget: 9 })));
        let many = many::Asked { file: Some("all.txt".into()), jobs: 3, json: true, budget: CALL_BUDGET };
        assert_eq!(read(&["many", "--jobs", "3", "--json", "all.txt"]), Ok(Request::Many(many)));
        assert_eq!(read(&["check", "e8: 1 1 1 >= 2"]), Ok(Request::Check(vec!["e8: 1 1 1 >= 2".into()])));
        assert_eq!(read(&["pack", "-"]), Ok(Request::Pack(None)));
        assert_eq!(read(&["list", "all.bin"]), Ok(Request::List(Some("all.bin".into()))));
        assert_eq!(read(&["many", "-h"]), Ok(Request::Help));
        assert_eq!(read(&["--version"]), Ok(Request::Version));
    }

    #[test]
    fn an_expression_among_tables_is_told() {
        let told = "\"x1 x2\" is no table: 'x' is not a hex digit; as an expression it is asked by threshold -e";
        assert_eq!(read(&["x1 x2"]), Trouble::usage(told));
        assert_eq!(read(&["zz"]), Trouble::usage("\"zz\" is no table: 'z' is not a hex digit"));
    }

    #[test]
    fn a_wrong_call_is_told() {
        for arguments in
            [&[][..], &["--rows"], &["on"], &["on", "a", "b"], &["on", "-"], &["many", "--jobs", "0"], &["list", "--json"], &["eg"]]
        {
            assert!(matches!(read(arguments), Err(Trouble::Usage(_))), "{arguments:?}");
        }
    }
}
