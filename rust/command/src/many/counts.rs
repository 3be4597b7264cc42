//! What the lines came to.

use crate::numbers;
use std::time::Duration;
use threshold::Verdict;

/// The sort of a verdict.
#[derive(Clone, Copy, Debug, PartialEq, Eq)]
pub enum Class {
    Gate,
    Without,
    Open,
}

pub fn class(verdict: &Verdict) -> Class {
    match verdict {
        Verdict::Gate(_) => Class::Gate,
        Verdict::Witness(_) => Class::Without,
        Verdict::Open(_) => Class::Open,
    }
}

/// Lines by what they came to: the first three are tables.
#[derive(Clone, Copy, Debug, Default, PartialEq, Eq)]
pub struct Counts {
    pub gates: u64,
    pub without: u64,
    pub open: u64,
    pub wrong: u64,
}

impl Counts {
    pub fn add(&mut self, class: Class) {
        match class {
            Class::Gate => self.gates += 1,
            Class::Without => self.without += 1,
            Class::Open => self.open += 1,
        }
    }

    pub fn add_all(&mut self, more: Counts) {
        self.gates += more.gates;
        self.without += more.without;
        self.open += more.open;
        self.wrong += more.wrong;
    }

    pub fn tables(&self) -> u64 {
        self.gates + self.without + self.open
    }

    pub fn summary(&self, distinct: u64, time: Duration) -> String {
        let seconds = match time.as_secs_f64() {
            below if below < 1.0 => "under 1 s".to_string(),
            seconds => format!("{seconds:.1} s"),
        };
        let (tables, distinct, wrong) =
            (numbers::of(self.tables(), "table"), numbers::grouped(distinct), numbers::of(self.wrong, "wrong line"));
        let [gates, without, open] = [self.gates, self.without, self.open].map(numbers::grouped);
        format!("{tables}, {distinct} distinct, in {seconds}: {gates} with a gate, {without} without, {open} given up; {wrong}")
    }
}

#[cfg(test)]
mod tests {
    use super::*;

    #[test]
    fn a_summary_adds_up() {
        let mut counts = Counts { gates: 1000, without: 1, open: 0, wrong: 1 };
        counts.add(Class::Open);
        counts.add_all(counts);
        let expected = "2,004 tables, 12 distinct, in 2.5 s: 2,000 with a gate, 2 without, 2 given up; 2 wrong lines";
        assert_eq!(counts.summary(12, Duration::from_millis(2500)), expected);
        let none = "0 tables, 0 distinct, in under 1 s: 0 with a gate, 0 without, 0 given up; 0 wrong lines";
        assert_eq!(Counts::default().summary(0, Duration::from_millis(999)), none);
    }
}
