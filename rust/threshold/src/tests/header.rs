//! The crate beside `include/threshold.h`: version, limits, refusals and declarations are the same.

use crate::{Refusal, CALL_BUDGET, CAP, ROOM};

const HEADER: &str = include_str!("../../../../include/threshold.h");
const DECLARED: &str = include_str!("../declared.rs");

/// What stands between two texts, at each place where both do.
fn between(text: &'static str, start: &'static str, end: &'static str) -> impl Iterator<Item = &'static str> {
    text.split(start).skip(1).filter_map(move |rest| rest.split_once(end)).map(|(found, _)| found)
}

/// The word that stands after a text of the header.
fn word_after(text: &str) -> &'static str {
    let (_, rest) = HEADER.split_once(text).expect("the text stands in the header");
    rest.split([',', ' ', '\n']).next().expect("a word")
}

#[test]
fn version_and_limits_are_the_headers() {
    assert_eq!(word_after("#define THRESHOLD_VERSION "), concat!('"', env!("CARGO_PKG_VERSION"), '"'));
    assert_eq!(word_after("#define THRESHOLD_CALL_BUDGET "), CALL_BUDGET.to_string());
    assert_eq!(word_after("#define THRESHOLD_CAP "), CAP.to_string());
    assert_eq!(word_after("#define THRESHOLD_ROOM "), ROOM.to_string());
}

/// The text of a C string, whose parts may stand on lines of their own.
fn joined(text: &str) -> String {
    text.split("\"\n").map(|part| part.trim_start().trim_start_matches('"')).collect()
}

#[test]
fn refusals_have_the_headers_numbers_and_texts() {
    let mut found = Vec::new();
    for case in between(HEADER, "case -", "\";") {
        let (name, text) = case.split_once(':').expect("a text");
        let text = joined(text.trim_start().strip_prefix("return \"").expect("a text"));
        let number = word_after(&format!(" {name} = ")).parse().expect("a small number");
        match Refusal::from_number(number) {
            Some(refusal) => assert_eq!(refusal.text(), text),
            None => assert!([13, 15].contains(&number), "{name} is no refusal here"), // no call gives them
        }
        found.push(number);
    }
    assert!(found.into_iter().eq((1..=16).chain(100..=105)));
}

/// A parameter of a C function as Rust declares it.
fn parameter(text: &str) -> String {
    let (kind, name) = text.trim().rsplit_once(' ').expect("a type and a name");
    let (pointer, kind) = match (name.starts_with('*'), kind.strip_prefix("const ")) {
        (true, Some(kind)) => ("*const ", kind),
        (true, None) => ("*mut ", kind),
        (false, _) => ("", kind),
    };
    let kind = match kind {
        "char" => "c_char",
        "size_t" => "usize",
        "uint8_t" => "u8",
        "uint32_t" => "u32",
        "uint64_t" => "u64",
        "int32_t" => "i32",
        other => panic!("no Rust type for {other}"),
    };
    format!("{}: {pointer}{kind}", name.trim_start_matches('*'))
}

/// Each function's name and parameters, these put into Rust's words.
fn functions(
    text: &'static str,
    start: &'static str,
    end: &'static str,
    parameter: impl Fn(&str) -> String,
) -> Vec<(&'static str, Vec<String>)> {
    let parameters = |list: &str| list.split(',').map(str::trim).filter(|text| !text.is_empty()).map(&parameter).collect();
    between(text, start, end).map(|found| found.split_once('(').expect("parameters")).map(|(name, list)| (name, parameters(list))).collect()
}

#[test]
fn declarations_are_the_headers() {
    let header = functions(HEADER, "\nint64_t ", ");", parameter);
    assert_eq!(header.len(), 20);
    assert_eq!(functions(DECLARED, "pub fn ", ") -> i64;", str::to_string), header);
}
