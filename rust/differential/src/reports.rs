//! Reports: those that `reports_main` has stored, and those that the program `report` writes of random inputs.

use crate::difference::Difference;
use crate::random::Random;
use crate::tables::{partial_table, table, Family};
use reference::report::{report, LONGEST};
use std::io::{self, Write};
use std::process::{Command, Stdio};

/// The program, which `./build report` proves and builds.
const PROGRAM: &str = concat!(env!("CARGO_MANIFEST_DIR"), "/../../target/bin/report");
/// The stored run: for each input a line that names and spells it, and its report.
const STORED: &str = include_str!("../../../crates/reports_main/stdout");
/// The random inputs of kind 1 records, and of kinds 1 and 5.
const INPUTS: u64 = 5_000;
const MIXED: u64 = 2_000;

/// How many reports were compared.
#[derive(Default)]
pub struct Reports {
    pub stored: u64,
    pub written: u64,
    /// Those with a mean on an exact half, over an even tenth and over an odd one.
    pub on_half: [u64; 2],
}

/// Compares the reports with the reference's.
pub fn compare_reports(random: &mut Random) -> Result<Reports, Difference> {
    let mut reports = Reports::default();
    for (input, stored) in stored_reports() {
        reports.compare(&input, &stored)?;
        reports.stored += 1;
    }
    for number in 0..INPUTS + MIXED {
        let input = random_input(random, number >= INPUTS);
        let written = written_by_program(&input).expect("the program report runs");
        reports.compare(&input, &written)?;
        reports.written += 1;
    }
    Ok(reports)
}

impl Reports {
    fn compare(&mut self, input: &[u8], found: &str) -> Result<(), Difference> {
        let expected = report(input);
        if found != expected {
            return Err(Difference::of_reports(input, found, &expected));
        }
        let (gates, sum) = gates_and_sum(&expected);
        if gates > 0 && 20 * sum % (2 * gates) == gates {
            self.on_half[(10 * sum / gates % 2) as usize] += 1;
        }
        Ok(())
    }
}

/// The number of G lines and the sum of their K, read off a report.
fn gates_and_sum(report: &str) -> (u64, u64) {
    let k = |line: &str| match line.split(' ').collect::<Vec<&str>>()[..] {
        [_, _, "G", k, ..] => k.parse().ok(),
        _ => None,
    };
    let gates: Vec<u64> = report.lines().filter_map(k).collect();
    (gates.len() as u64, gates.iter().sum())
}

/// The inputs of the stored run, each with its report, no line of which begins with a small letter.
fn stored_reports() -> Vec<(Vec<u8>, String)> {
    let mut stored: Vec<(Vec<u8>, String)> = Vec::new();
    for line in STORED.split_inclusive('\n') {
        if line.starts_with(|first: char| first.is_ascii_lowercase()) {
            stored.push((input_of(line.trim_end()), String::new()));
        } else {
            stored.last_mut().expect("an input before its report").1 += line;
        }
    }
    stored
}

/// The input that a line spells: after its name come parts, each a number and the bytes, in base sixteen, that come so many times.
fn input_of(line: &str) -> Vec<u8> {
    let byte = |digits: &str, at: usize| u8::from_str_radix(&digits[at..at + 2], 16).expect("a byte");
    let bytes = |digits: &str| (0..digits.len()).step_by(2).map(|at| byte(digits, at)).collect::<Vec<u8>>();
    let words: Vec<&str> = line.split(' ').skip(1).collect();
    words.chunks(2).flat_map(|part| bytes(part[1]).repeat(part[0].parse().expect("a number"))).collect()
}

/// Records of random tables of up to six inputs, in a mixed input half of them of kind 5. One in a hundred is as long as an input may be,
/// or a byte longer; one in three is damaged.
fn random_input(random: &mut Random, mixed: bool) -> Vec<u8> {
    const FAMILIES: [Family; 5] = [Family::Random, Family::Threshold, Family::Threshold, Family::NearlyThreshold, Family::Unate];
    let mut input = Vec::new();
    for _ in 0..random.choose(&[0, 1, 2, 3, 4, 8, 12, 20, 40]) {
        let (family, n) = (random.choose(&FAMILIES), random.below(7));
        let partial = mixed && random.one_in(2);
        input.extend(if partial { partial_table(random, family, n) } else { table(random, family, n) });
    }
    if !input.is_empty() && random.one_in(100) {
        input = input.repeat(LONGEST / input.len() + 1);
        input.truncate(LONGEST + random.below(2));
    }
    if !input.is_empty() && random.one_in(3) {
        let at = random.below(input.len());
        if random.one_in(2) {
            input.truncate(at);
        } else {
            input[at] = random.draw() as u8;
        }
    }
    input
}

/// What the program writes of an input. It reads before it writes, so that neither side waits for the other.
fn written_by_program(input: &[u8]) -> io::Result<String> {
    let mut program = Command::new(PROGRAM).stdin(Stdio::piped()).stdout(Stdio::piped()).spawn()?;
    program.stdin.take().expect("a pipe").write_all(input)?;
    let output = program.wait_with_output()?;
    if !output.status.success() {
        return Err(io::Error::other(format!("it ended with {}", output.status)));
    }
    String::from_utf8(output.stdout).map_err(io::Error::other)
}
