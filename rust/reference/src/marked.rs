//! "Edges and marked cases", the example of a report, the means of document 02, §1, and the published counts, of the reference itself.

use crate::calls;
use crate::gate::Gate;
use crate::job::{Job, Stage, Vector};
use crate::record::Record;
use crate::refusal::Refusal;
use crate::report::{mean, report};
use crate::table::Table;
use crate::witness::Witness;

fn table(n: u8, bytes: &[u8]) -> Table {
    match Record::read(&[&[1, n], bytes].concat()) {
        Ok(Record::Table(table)) => table,
        other => panic!("{other:?}"),
    }
}

fn settled(table: Table) -> Job {
    let job = Job::decided(table);
    assert!(job.is_sound());
    job
}

#[test]
fn gates_of_small_tables() {
    let cases: [(u8, u8, i64, &[i64], i64); 5] =
        [(0, 0x01, 1, &[], -1), (0, 0x00, 1, &[], 1), (1, 0x03, 1, &[0], -1), (1, 0x02, 5, &[2], 1), (2, 0x08, 18, &[2, 3], 4)];
    for (n, byte, k, weights, threshold) in cases {
        let job = settled(table(n, &[byte]));
        assert_eq!((job.stage, job.k), (Stage::Found, k));
        assert_eq!(job.shown(), Record::Gate(job.table.clone(), Gate { weights: weights.to_vec(), threshold }));
    }
}

#[test]
fn witnesses_of_tables_without_a_gate() {
    let xor = settled(table(2, &[0x06]));
    assert_eq!((xor.stage, xor.counts), (Stage::Binate, vec![1; 4]));
    let unate = table(4, &[0x88, 0xF8]);
    let counts = (0..16).map(|row| i64::from([3, 12, 5, 10].contains(&row))).collect();
    assert!(Witness { counts }.balances(&unate));
    let job = settled(unate);
    assert_eq!(job.stage, Stage::Looped);
    assert!(Witness { counts: job.counts }.balances(&job.table));
}

#[test]
fn gate_of_document_003() {
    let gate = Gate { weights: vec![9, 8, 5, 4, 3, 2], threshold: 17 };
    assert!(gate.value(35) && !gate.value(38));
}

#[test]
fn budgets_at_their_limits() {
    let and = table(2, &[0x08]);
    assert_eq!(Job::fresh(and.clone()).carry_on(100_001), Err(Refusal::Budget));
    assert_eq!(Job::fresh(and.clone()).carry_on(0), Err(Refusal::Budget));
    assert_eq!(Job::fresh(and.clone()).carry_on(100_000), Ok(18));
    // Row 0 corrected K - M times: b is that high above s, and row 3 fails.
    let rise = 950_000 - 524_288;
    let v = Vector { a: vec![0, 0], b: rise };
    let late = Job::open(and, 950_000, v, Vector::zero(2), vec![rise, 0, 0, 0]);
    assert!(late.is_sound());
    assert!(late.clone().carry_on(50_000).is_ok());
    assert_eq!(late.clone().carry_on(50_001), Err(Refusal::Cap));
}

#[test]
fn chow_parameters() {
    let table = table(3, &[0xEA]);
    assert_eq!([1, 2, 3].map(|input| table.chow(input)), [3, 1, 1]);
}

#[test]
fn published_counts_of_threshold_tables() {
    for (n, published) in [(0, 2), (1, 4), (2, 14), (3, 104), (4, 1882)] {
        let tables = (0..1u64 << (1 << n)).map(|bits| Table::full(n, (0..1 << n).map(|row| (bits >> row) & 1 == 1).collect()));
        assert_eq!(tables.filter(|table| settled(table.clone()).stage == Stage::Found).count(), published);
    }
}

/// Bytes, and the number that reading them gives.
#[test]
fn refusals_in_their_order() {
    let cases: [(&[u8], u8); 22] = [
        (&[], 1),
        (&[7], 5),
        (&[1], 1),
        (&[1, 9], 2),
        (&[1, 0x80], 1),
        (&[1, 0x80, 0x00], 4),
        (&[1, 0x80, 0x80, 0x80], 4),
        (&[1, 0x81, 0x80, 0x01], 2),
        (&[1, 4, 0xFF], 1),
        (&[1, 2, 0x18], 3),
        (&[1, 2, 0x08, 0], 6),
        (&[2, 1, 0x02, 0x82, 0x89, 0x7A], 7),
        (&[2, 1, 0x02, 0x80, 0x89, 0x7A], 1),
        (&[3, 1, 0x02, 0], 8),
        (&[3, 1, 0x02, 3], 8),
        (&[3, 1, 0x02, 1, 2], 8),
        (&[3, 1, 0x02, 2, 1, 1, 1], 8),
        (&[3, 1, 0x02, 1, 1, 0], 8),
        (&[4, 1, 0x02, 0, 0, 0, 0, 0, 3], 1),
        (&[4, 1, 0x02, 0, 0, 0, 0, 0, 1, 9, 0, 7], 9),
        (&[4, 2, 0x06, 0, 0, 0, 0, 0, 0, 0, 0], 9),
        (&[4, 1, 0x02, 0, 0, 0, 0, 0, 0, 7], 6),
    ];
    for (bytes, number) in cases {
        assert_eq!(Record::read(bytes).map_err(|refusal| refusal as u8), Err(number), "{bytes:02x?}");
    }
    assert_eq!(calls::kind(&[4, 1, 0x02, 0, 0, 0, 0, 0, 0]), Ok(4));
}

/// Document 01's example, an empty input, and one that is too long.
#[test]
fn reports() {
    let lines = "1 2 G 18 9 2 3 4\n2 2 N 0 2 0:1 1:1 2:1 3:1\n3 1 G 5 3 2 1\n3 2 1 0 11.5\n";
    assert_eq!(report(&[1, 2, 8, 1, 2, 6, 1, 1, 2]), lines);
    assert_eq!(report(&[]), "0 0 0 0 -\n");
    assert_eq!(report(&[0; 65_537]), "R 15\n");
}

/// Document 02, §1: exact halves, means just beside one, and others.
#[test]
fn means() {
    let halves = [(45, 4, "11.2"), (227, 20, "11.4"), (47, 4, "11.8"), (59, 20, "3.0"), (149_594_002, 1_928, "77590.2")];
    let beside = [(80, 39, "2.1"), (76, 39, "1.9"), (149_594_003, 1_928, "77590.3")];
    let others = [(23, 2, "11.5"), (18, 1, "18.0"), (7, 3, "2.3"), (0, 0, "-")];
    for (sum, count, text) in halves.into_iter().chain(beside).chain(others) {
        assert_eq!(mean(sum, count), text, "{sum} of {count}");
    }
}
