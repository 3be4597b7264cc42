//! The distinct tables with their answers, shared by all threads.

use super::counts::Class;
use std::collections::HashMap;
use std::hash::Hash;
use std::sync::{Arc, Mutex, OnceLock};
use threshold::Table;

/// Threads that look for different tables seldom wait for each other: there are this many maps, each with its lock.
const SHARDS: usize = 256;
/// The tables that a thread finds again without asking the others.
const RECENT: usize = 1 << 15;

/// The answer to a table: its sort, and what stands after the table in its line.
pub struct Answer {
    pub class: Class,
    pub text: Box<str>,
}

/// A place for an answer. The first thread that asks for it decides; others that ask meanwhile wait for it.
type Cell = Arc<OnceLock<Answer>>;

/// A table's inputs and words, and those of its cares: a table with every row cared for has no need of these.
type Full = [u64; 5];
type Partial = [u64; 9];

/// Some of the tables. It fills cache lines of its own, so that threads at two maps do not meet.
#[repr(align(128))]
struct Shard<K>(Mutex<HashMap<K, Cell>>);

/// The tables of one sort of key.
struct Shards<K>(Vec<Shard<K>>);

impl<K: Eq + Hash> Shards<K> {
    fn new() -> Shards<K> {
        Shards((0..SHARDS).map(|_| Shard(Mutex::default())).collect())
    }

    fn len(&self) -> u64 {
        self.0.iter().map(|shard| shard.0.lock().expect("no thread fails").len() as u64).sum()
    }
}

pub struct Answers {
    full: Shards<Full>,
    partial: Shards<Partial>,
}

impl Answers {
    pub fn new() -> Answers {
        Answers { full: Shards::new(), partial: Shards::new() }
    }

    /// The number of tables.
    pub fn distinct(&self) -> u64 {
        self.full.len() + self.partial.len()
    }
}

/// A thread's way to the answers. It keeps some of the tables that it met last: most lines of a long list are met again soon.
pub struct Asker<'a> {
    full: Recent<'a, Full>,
    partial: Recent<'a, Partial>,
}

impl Asker<'_> {
    pub fn new(answers: &Answers) -> Asker<'_> {
        Asker { full: Recent::new(&answers.full, RECENT), partial: Recent::new(&answers.partial, 0) }
    }

    /// The answer to a table, which is decided if it is not known.
    pub fn ask(&mut self, table: &Table, decide: impl FnOnce() -> Answer) -> &Answer {
        let [a, b, c, d] = table.words();
        let n = table.inputs().into();
        if !table.is_partial() {
            return self.full.cell([n, a, b, c, d]).get_or_init(decide);
        }
        let [e, f, g, h] = table.cares();
        self.partial.cell([n, a, b, c, d, e, f, g, h]).get_or_init(decide)
    }
}

/// Tables that a thread met last, of one sort of key: as many as it keeps, or none before the first.
struct Recent<'a, K> {
    shards: &'a Shards<K>,
    slots: Vec<Option<(K, Cell)>>,
}

impl<'a, const WORDS: usize> Recent<'a, [u64; WORDS]>
where
    [u64; WORDS]: Eq + Hash,
{
    fn new(shards: &'a Shards<[u64; WORDS]>, slots: usize) -> Self {
        Recent { shards, slots: vec![None; slots] }
    }

    fn cell(&mut self, key: [u64; WORDS]) -> &Cell {
        if self.slots.is_empty() {
            self.slots = vec![None; RECENT];
        }
        let spread = key.iter().fold(0u64, |spread, word| (spread ^ word).wrapping_mul(0x9e37_79b9_7f4a_7c15).rotate_left(32)) as usize;
        let slot = &mut self.slots[spread % RECENT];
        if slot.as_ref().is_none_or(|(recent, _)| *recent != key) {
            let mut shard = self.shards.0[spread / RECENT % SHARDS].0.lock().expect("no thread fails");
            *slot = Some((key, shard.entry(key).or_default().clone()));
        }
        &slot.as_ref().expect("it was set").1
    }
}

#[cfg(test)]
mod tests {
    use super::*;

    #[test]
    fn a_table_is_decided_once() {
        let answers = Answers::new();
        let asked = |table: &Table, text: &str| {
            let mut asker = Asker::new(&answers);
            asker.ask(table, || Answer { class: Class::Open, text: text.into() }).text.to_string()
        };
        let e8: Table = "e8".parse().unwrap();
        assert_eq!(asked(&e8, "first"), "first");
        assert_eq!(asked(&e8, "second"), "first");
        for (table, text) in [("00e8".parse().unwrap(), "other"), ("0".parse().unwrap(), "two"), (Table::from_hex(1, "0").unwrap(), "one")]
        {
            assert_eq!(asked(&table, text), text);
        }
        assert_eq!(answers.distinct(), 4);
        for text in ["e8@fe", "e8@f8", "e8@e8", "00e8@00ff"] {
            assert_eq!(asked(&text.parse().unwrap(), text), text);
            assert_eq!(asked(&text.parse().unwrap(), "again"), text);
        }
        assert_eq!((asked(&e8, "third"), answers.distinct()), ("first".to_string(), 8));
    }

    #[test]
    fn threads_decide_a_table_once_even_past_what_they_keep() {
        let answers = Answers::new();
        let decided = Mutex::new(0);
        let ask = || {
            let mut asker = Asker::new(&answers);
            for word in (0..0x1_0000).chain(0..0x1_0000) {
                let table = Table::from_words(4, &[word]).unwrap();
                let decide = || {
                    *decided.lock().unwrap() += 1;
                    Answer { class: Class::Open, text: format!("{word}").into() }
                };
                assert_eq!(*asker.ask(&table, decide).text, word.to_string());
            }
        };
        std::thread::scope(|scope| (0..2).for_each(|_| _ = scope.spawn(ask)));
        assert_eq!((*decided.lock().unwrap(), answers.distinct()), (0x1_0000, 0x1_0000));
    }
}
