//! Answers to chunks, which come in any order and are written in theirs.

use super::counts::Counts;
use crate::numbers;
use crate::trouble::Trouble;
use std::collections::BTreeMap;
use std::io::Write;
use std::sync::{Condvar, Mutex, MutexGuard};
use std::time::{Duration, Instant};

/// How many chunks may be ahead of the next to be written: what is held back stays within some megabytes.
const AHEAD: usize = 4096;
/// How many wrong lines are told; the rest are counted.
const TOLD: u64 = 20;
/// The time between two progress lines.
const PAUSE: Duration = Duration::from_millis(250);

/// The answer to a chunk: lines, what is wrong in others, and counts.
#[derive(Default)]
pub struct Done {
    pub text: String,
    pub wrong: Vec<String>,
    pub counts: Counts,
}

pub struct Sink<O, E> {
    state: Mutex<State<O, E>>,
    /// Told when a chunk was written, or nothing more will be.
    moved: Condvar,
}

struct State<O, E> {
    output: O,
    errors: E,
    /// The chunk to be written next.
    next: usize,
    /// Those after it that are there.
    waiting: BTreeMap<usize, Done>,
    counts: Counts,
    trouble: Option<Trouble>,
    /// Whether there is a progress line, and when it was last written.
    shown: bool,
    last: Instant,
}

impl<O: Write, E: Write> Sink<O, E> {
    /// A sink with its output, with a place to tell wrong lines, and with or without a progress line there.
    pub fn new(output: O, errors: E, shown: bool) -> Sink<O, E> {
        let waiting = BTreeMap::new();
        let state = State { output, errors, next: 0, waiting, counts: Counts::default(), trouble: None, shown, last: Instant::now() };
        Sink { state: Mutex::new(state), moved: Condvar::new() }
    }

    fn state(&self) -> MutexGuard<'_, State<O, E>> {
        self.state.lock().expect("no thread fails")
    }

    /// Waits while a chunk is far ahead, and says whether it is still wanted.
    pub fn admits(&self, index: usize) -> bool {
        let far = |state: &mut State<O, E>| state.trouble.is_none() && index >= state.next + AHEAD;
        self.moved.wait_while(self.state(), far).expect("no thread fails").trouble.is_none()
    }

    /// Takes the answer to a chunk, and writes what is due.
    pub fn put(&self, index: usize, done: Done) {
        let mut state = self.state();
        state.waiting.insert(index, done);
        while let Some(done) = {
            let next = state.next;
            state.waiting.remove(&next)
        } {
            state.write(done);
        }
        self.moved.notify_all();
    }

    /// Ends the work with a trouble.
    pub fn fail(&self, trouble: Trouble) {
        self.state().trouble.get_or_insert(trouble);
        self.moved.notify_all();
    }

    /// Sees the output through, and gives the counts.
    pub fn end(self) -> Result<Counts, Trouble> {
        let mut state = self.state.into_inner().expect("no thread fails");
        state.clear();
        match state.trouble {
            Some(trouble) => Err(trouble),
            None => state.output.flush().map(|()| state.counts).map_err(Trouble::at("standard output")),
        }
    }
}

impl<O: Write, E: Write> State<O, E> {
    /// Writes the answer to the next chunk. After a trouble nothing more is written.
    fn write(&mut self, done: Done) {
        self.next += 1;
        if self.trouble.is_some() {
            return;
        }
        self.trouble = self.output.write_all(done.text.as_bytes()).map_err(Trouble::at("standard output")).err();
        if !done.wrong.is_empty() {
            self.clear();
        }
        for (told, wrong) in (self.counts.wrong..).zip(&done.wrong).take_while(|(told, _)| *told <= TOLD) {
            let _ = match told {
                TOLD => writeln!(self.errors, "threshold: more lines are wrong; they are counted"),
                _ => writeln!(self.errors, "threshold: {wrong}"),
            };
        }
        self.counts.add_all(done.counts);
        self.show();
    }

    /// Writes the progress line if it is time.
    fn show(&mut self) {
        if self.shown && self.last.elapsed() >= PAUSE {
            let [tables, gates] = [self.counts.tables(), self.counts.gates].map(numbers::grouped);
            let _ = write!(self.errors, "\r{tables} tables, {gates} with a gate ");
            let _ = self.errors.flush();
            self.last = Instant::now();
        }
    }

    /// Takes the progress line away.
    fn clear(&mut self) {
        if self.shown {
            let _ = write!(self.errors, "\r\x1b[K");
        }
    }
}

#[cfg(test)]
mod tests {
    use super::*;
    use std::io;

    fn done(text: &str, wrong: usize) -> Done {
        let counts = Counts { gates: 1, wrong: wrong as u64, ..Counts::default() };
        Done { text: text.to_string(), wrong: vec!["wrong".to_string(); wrong], counts }
    }

    #[test]
    fn chunks_are_written_in_order() {
        let (mut output, mut errors) = (Vec::new(), Vec::new());
        let sink = Sink::new(&mut output, &mut errors, false);
        for (index, text) in [(2, "c"), (0, "a"), (1, "b"), (3, "d")] {
            sink.put(index, done(text, 0));
        }
        assert_eq!(sink.end(), Ok(Counts { gates: 4, ..Counts::default() }));
        assert_eq!((output, errors), (b"abcd".to_vec(), Vec::new()));
    }

    #[test]
    fn the_first_wrong_lines_are_told() {
        let (mut output, mut errors) = (Vec::new(), Vec::new());
        let sink = Sink::new(&mut output, &mut errors, false);
        (0..3).for_each(|index| sink.put(index, done("", 15)));
        assert_eq!(sink.end().unwrap().wrong, 45);
        let told = String::from_utf8(errors).unwrap();
        assert_eq!(told, "threshold: wrong\n".repeat(20) + "threshold: more lines are wrong; they are counted\n");
    }

    /// An output that is full.
    struct Full;

    impl Write for Full {
        fn write(&mut self, _: &[u8]) -> io::Result<usize> {
            Err(io::ErrorKind::StorageFull.into())
        }

        fn flush(&mut self) -> io::Result<()> {
            Ok(())
        }
    }

    #[test]
    fn a_full_output_ends_the_work() {
        let sink = Sink::new(Full, Vec::new(), false);
        assert!(sink.admits(0));
        sink.put(0, done("a", 0));
        assert!(!sink.admits(1) && !sink.admits(2 * AHEAD));
        assert_eq!(sink.end(), Err(Trouble::Failed("standard output: no storage space".to_string())));
    }
}
