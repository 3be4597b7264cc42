//! A table a line, over all cores: the answers come in the order of the lines, and each distinct table is decided once.
//!
//! Each thread takes the next chunk of lines from the source, answers it, and hands the answers to the sink, which writes them in order. So
//! one thread does all the work by itself, and more share it evenly.

mod answers;
mod counts;
mod sink;
mod source;

use crate::known::Known;
use crate::trouble::{self, Trouble};
use crate::{files, line, numbers, written};
use answers::{Answer, Answers, Asker};
use sink::{Done, Sink};
use source::{Chunk, Source, LONGEST_LINE};
use std::io::{self, IsTerminal, Read, Write};
use std::sync::{mpsc, Mutex};
use std::thread::Builder;
use std::time::Instant;
use threshold::Table;

/// The bytes that must be free for a thread to start. They are not used, so they cost nothing where memory has no limit.
const ROOM_TO_START: usize = 128 << 20;

/// What is asked.
#[derive(Debug, PartialEq, Eq)]
pub struct Asked {
    pub file: Option<String>,
    pub jobs: u32,
    pub json: bool,
    pub budget: u32,
}

/// Answers the lines of the file or of standard input on standard output, and sums up on standard error.
pub fn run(asked: &Asked) -> Result<u8, Trouble> {
    let start = Instant::now();
    let input = files::open(asked.file.as_deref())?;
    let shown = io::stderr().is_terminal() && !io::stdout().is_terminal();
    let sink = Sink::new(io::stdout(), io::stderr(), shown);
    let distinct = answer_all(asked, input, &sink);
    let counts = sink.end()?;
    // The answers are written: a closed standard error takes nothing from them.
    let _ = writeln!(io::stderr(), "{}", counts.summary(distinct, start.elapsed()));
    Ok(if counts.wrong == 0 { trouble::DONE } else { trouble::FAILED })
}

/// Answers all lines, and gives the number of distinct tables.
fn answer_all<O: Write + Send, E: Write + Send>(asked: &Asked, input: Box<dyn Read + Send>, sink: &Sink<O, E>) -> u64 {
    let source = Mutex::new(Source::new(input));
    let answers = Answers::new();
    let work = |mut asker: Asker| loop {
        let next = source.lock().expect("no thread fails").next();
        match next {
            Ok(Some(chunk)) if sink.admits(chunk.index) => sink.put(chunk.index, answer_chunk(asked, &chunk, &mut asker)),
            Ok(_) => return,
            Err(error) => return sink.fail(Trouble::at(files::name(asked.file.as_deref()))(error)),
        }
    };
    share(asked.jobs, &answers, work);
    let distinct = answers.distinct();
    // The call ends here: one thread alone would give back millions of answers.
    std::mem::forget(answers);
    distinct
}

/// Does work on this thread and on others, as many as asked for, or fewer where one has no room or a limit keeps it from starting. Each is
/// started when the one before has taken its memory.
fn share(jobs: u32, answers: &Answers, work: impl Fn(Asker) + Sync) {
    let (tell, told) = mpsc::channel();
    let begin = || {
        let asker = Asker::new(answers);
        let _ = tell.send(());
        work(asker);
    };
    std::thread::scope(|scope| {
        let started = |_: &u32| has_room() && Builder::new().spawn_scoped(scope, begin).is_ok() && told.recv().is_ok();
        (1..jobs).take_while(started).for_each(drop);
        begin();
    });
}

/// Whether memory has room for one more thread, and some to work with.
fn has_room() -> bool {
    let mut room = Vec::<u8>::new();
    let found = room.try_reserve_exact(ROOM_TO_START);
    std::hint::black_box(&room);
    found.is_ok()
}

/// The answers of a chunk, a line each, and what is wrong in it.
fn answer_chunk(asked: &Asked, chunk: &Chunk, asker: &mut Asker) -> Done {
    let mut done = Done::default();
    for (number, line) in (chunk.first_line..).zip(chunk.text.split_inclusive(|&byte| byte == b'\n')) {
        match table(line) {
            None => {}
            Some(Ok(table)) => {
                let answer = asker.ask(&table, || decided(asked, &table));
                done.counts.add(answer.class);
                put_line(&mut done.text, asked, &table, &answer.text);
            }
            Some(Err(why)) => {
                done.counts.wrong += 1;
                done.wrong.push(format!("line {number}: {why}"));
            }
        }
    }
    done
}

/// The table of a line, or nothing if it is blank or a comment.
fn table(line: &[u8]) -> Option<Result<Table, String>> {
    let text = String::from_utf8_lossy(line);
    if line.len() > LONGEST_LINE && !text.trim_start().starts_with('#') {
        return Some(Err(format!("longer than {} bytes", numbers::grouped(LONGEST_LINE as u64))));
    }
    let text = written::content(&text)?;
    Some(written::table(text, None).map_err(|why| written::hinted(text, why)))
}

/// The answer to a table.
fn decided(asked: &Asked, table: &Table) -> Answer {
    let known = Known::decided(table, asked.budget);
    let text = if asked.json { line::json_fields(&known) } else { line::verdict(&known.verdict) };
    Answer { class: counts::class(&known.verdict), text: text.into() }
}

fn put_line(text: &mut String, asked: &Asked, table: &Table, answer: &str) {
    if asked.json {
        text.push_str(&line::json(table, answer));
    } else {
        text.extend([&written::digits(table), ": ", answer]);
    }
    text.push('\n');
}

#[cfg(test)]
mod tests {
    use super::counts::Counts;
    use super::*;

    /// What is written to output and to errors, the counts and the number of distinct tables.
    fn answered(jobs: u32, json: bool, input: &str) -> (String, String, Counts, u64) {
        let asked = Asked { file: None, jobs, json, budget: 100_000 };
        let (mut output, mut errors) = (Vec::new(), Vec::new());
        let sink = Sink::new(&mut output, &mut errors, false);
        let distinct = answer_all(&asked, Box::new(io::Cursor::new(input.to_string())), &sink);
        let counts = sink.end().unwrap();
        (String::from_utf8(output).unwrap(), String::from_utf8(errors).unwrap(), counts, distinct)
    }

    #[test]
    fn lines_are_answered_in_order() {
        let (output, errors, counts, distinct) = answered(1, false, "e8\n\n# none\n0xF888\r\n  E8\nxyz\n2/1");
        assert_eq!(output, "e8: 2 3 3 >= 4\nf888: 3 12 = 6 9\ne8: 2 3 3 >= 4\n2/1: 2 >= 1\n");
        assert_eq!(errors, "threshold: line 6: \"xyz\" is no table: 'x' is not a hex digit\n");
        assert_eq!((counts, distinct), (Counts { gates: 3, without: 1, open: 0, wrong: 1 }, 3));
    }

    #[test]
    fn a_long_line_is_a_wrong_line() {
        let [long, longest] = [65_536, 65_535].map(|length| "0".repeat(length));
        let (output, errors, counts, _) = answered(1, false, &format!("e8\n{long}\n#{long}\n{longest}\n8\n{long}"));
        assert_eq!((output.as_str(), counts.wrong), ("e8: 2 3 3 >= 4\n8: 2 3 >= 4\n", 3));
        let told: Vec<&str> = errors.lines().collect();
        assert_eq!((told[0], told[2]), ("threshold: line 2: longer than 65,536 bytes", "threshold: line 6: longer than 65,536 bytes"));
        assert!(told[1].ends_with("0\" has 65,535 hex digits: a table of 2 to 8 inputs has 1, 2, 4, 8, 16, 32 or 64"));
    }

    #[test]
    fn an_expression_is_hinted_at() {
        let told = "threshold: line 1: \"x1 x2\" is no table: 'x' is not a hex digit; as an expression it is asked by threshold -e\n";
        assert_eq!(answered(1, false, "x1 x2\n").1, told);
    }

    #[test]
    fn lines_of_json_are_objects() {
        let (output, ..) = answered(1, true, "e8\n");
        assert_eq!(output, "{\"table\":\"e8\",\"inputs\":3,\"verdict\":\"gate\",\"weights\":[2,3,3],\"threshold\":4,\"corrections\":24}\n");
    }

    #[test]
    fn any_number_of_threads_gives_the_same() {
        let input: String = (0..50_000u32).map(|number| format!("{:04x}\n", number.wrapping_mul(0x9e37_79b1) >> 17 & 0xffff)).collect();
        let one = answered(1, false, &input);
        assert_eq!(one.0.lines().count(), 50_000);
        for jobs in [2, 5] {
            assert_eq!(answered(jobs, false, &input), one);
        }
    }
}
