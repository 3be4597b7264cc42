//! Runs every comparison from one seed and prints how much was compared. Ends at the first difference, which it describes.

use differential::compare::Comparison;
use differential::difference::Difference;
use differential::random::Random;
use differential::{
    cares::compare_cares,
    damage::{compare_changed_jobs, compare_damaged},
    digits::compare_digits,
    gates::compare_gates,
    heights::compare_heights,
    lists::compare_lists,
    partial::{compare_partial, Verdicts},
    reports::compare_reports,
    verdicts::compare_verdicts,
    witnesses::compare_witnesses,
    words::compare_words,
};
use std::process::ExitCode;
use std::time::Instant;

fn main() -> ExitCode {
    match compare_all(&mut Comparison::new(1)) {
        Ok(()) => ExitCode::SUCCESS,
        Err(difference) => {
            eprintln!("{difference}");
            ExitCode::FAILURE
        }
    }
}

fn compare_all(comparison: &mut Comparison) -> Result<(), Difference> {
    let start = Instant::now();
    compare_calls(comparison)?;
    let tally = &comparison.tally;
    print!("{} calls in all; by name, and refused by number:\n{tally}", tally.calls());
    assert!(tally.refusals().into_iter().eq((1..=12).chain([14, 16]).chain(100..=105)), "a refusal that was never compared");
    tally.assert_as_named();
    compare_texts(&mut comparison.random)?;
    println!("no difference, {} seconds", start.elapsed().as_secs());
    Ok(())
}

/// Compares the calls.
fn compare_calls(comparison: &mut Comparison) -> Result<(), Difference> {
    compare_digits(comparison)?;
    compare_words(comparison)?;
    compare_gates(comparison)?;
    compare_witnesses(comparison)?;
    println!("{} calls on digits, words, weights and counts", comparison.tally.calls());
    let damaged = compare_damaged(comparison)?;
    println!("{} damaged records of kinds 1 to 4, {} of kinds 5 and 6", damaged.full, damaged.partial);
    let jobs = compare_changed_jobs(comparison)?;
    println!("{} jobs of kind 4 with parts changed, {} of kind 6", jobs.full, jobs.partial);
    let lists = compare_lists(comparison)?;
    println!("{} lists of calls on jobs of kind 4, {} of kind 6", lists.full, lists.partial);
    let verdicts = compare_verdicts(comparison)?;
    println!("{verdicts} verdicts of tables with every row cared for");
    let before = comparison.tally.calls();
    compare_cares(comparison)?;
    println!("{} calls on words and cares", comparison.tally.calls() - before);
    compare_partial_tables(comparison)
}

/// Compares the verdicts of tables with rows that are not cared for.
fn compare_partial_tables(comparison: &mut Comparison) -> Result<(), Difference> {
    let names =
        ["every table of up to three inputs with rows true, false or not cared for", "samples with a row left free", "random tables"];
    let verdicts = compare_partial(comparison)?;
    for (name, Verdicts { gates, witnesses, open }) in names.into_iter().zip(verdicts) {
        println!("{name}: {gates} with a gate, {witnesses} without, {open} open");
    }
    assert!(verdicts.iter().any(|verdicts| verdicts.open > 0), "an open job of such a table that was never compared");
    Ok(())
}

/// Compares the reports and the page of heights.
fn compare_texts(random: &mut Random) -> Result<(), Difference> {
    let reports = compare_reports(random)?;
    println!("{} stored reports and {} of the program", reports.stored, reports.written);
    let [even, odd] = reports.on_half;
    println!("means on an exact half: {even} over an even tenth, {odd} over an odd one");
    assert!(even > 0 && odd > 0, "an exact half that was never compared");
    let heights = compare_heights()?;
    println!("{heights} rows of the page of heights");
    assert_eq!(heights, 256, "rows of the page that were never compared");
    Ok(())
}
