//! `compare`: every call of the library against the second tool, on inputs
//! right and damaged. A line for each family of calls says how many inputs
//! were accepted and how many each question refused; the last line is
//! `N passed, M failed`.
//!
//! Each input goes through the call as C sees it, whose whole answer is
//! compared, and through the safe function.

mod checks;
mod codes;
mod events;
mod generators;
mod guards;
mod listed;
mod orders;
mod part;
mod paths;
mod quote;
mod random;
mod records;
mod search;
mod searched;
mod sets;
mod sizes;
mod stored;
mod tally;
mod texts;

use dohvrin::calls::Answer;
use dohvrin::RowAnswer;
use dso_ref::Refusal;
use std::process::ExitCode;
use tally::Tally;

const USAGE: &str = "\
usage: compare                  every call
       compare --short          every call on few inputs, as for valgrind
       compare --quotes N       every length of so many orders, alone
       compare --sets N         so many small orders with sets of lengths, alone
       compare --records N      so many orders by record alone
       compare --sizes N        so many orders whose sizes are counted, alone
       compare --rows FILE...   the stored cases of these files";

/// Compares a call on so many inputs.
type Family = fn(u64) -> Tally;

/// Every family with its number of inputs, and that of a short run, in which
/// each question still refuses some. The two large orders are not in it.
const FAMILIES: [(Family, u64, u64); 30] = [
    (checks::append, 400_000, 1_000),
    (checks::strip, 400_000, 1_000),
    (checks::test, 400_000, 1_000),
    (codes::weigh, 400_000, 1_000),
    (codes::encode, 400_000, 1_000),
    (records::read_order, 400_000, 1_000),
    (events::collect, 4_000, 240),
    (events::small_tables, 3_000, 30),
    (events::large_tables, 1, 0),
    (paths::list, 3_000, 240),
    (paths::small_tables, 2_000, 25),
    (paths::long_tables, 80, 2),
    (paths::large_tables, 1, 0),
    (part::part, 400_000, 1_000),
    (search::search, 2_500, 400),
    (search::count, 2_500, 300),
    (search::small_tables, 600, 20),
    (search::long_tables, 60, 4),
    (search::large_tables, 1, 0),
    (quote::quote, 2_500, 200),
    (quote::small_tables, 2_000, 16),
    (quote::long_tables, 40, 3),
    (quote::shorter_events, 1_500, 20),
    (sets::sets, 4_000, 300),
    (sets::small_tables, 1_200, 40),
    (sets::long_tables, 40, 2),
    (sizes::counted, 4_000, 20),
    (texts::row_text, 100_000, 300),
    (texts::refusal_text, 100_000, 300),
    (orders::orders, 100_000, 600),
];

fn main() -> ExitCode {
    let arguments: Vec<String> = std::env::args().skip(1).collect();
    match run(&arguments) {
        Ok((passed, failed)) => {
            println!("{passed} passed, {failed} failed");
            if failed == 0 && passed > 0 {
                ExitCode::SUCCESS
            } else {
                ExitCode::FAILURE
            }
        }
        Err(message) => {
            eprintln!("compare: {message}");
            ExitCode::from(2)
        }
    }
}

/// How many checks passed and failed.
fn run(arguments: &[String]) -> Result<(u64, u64), String> {
    let words: Vec<&str> = arguments.iter().map(String::as_str).collect();
    match words[..] {
        [] => Ok(tallied(FAMILIES.map(|(call, inputs, _)| (call, inputs)))),
        ["--short"] => Ok(tallied(FAMILIES.map(|(call, _, few)| (call, few)))),
        ["--quotes", number] => alone(quote::small_tables, number),
        ["--sets", number] => alone(sets::small_tables, number),
        ["--records", number] => alone(orders::orders, number),
        ["--sizes", number] => alone(sizes::counted, number),
        ["--rows", _, ..] => stored::rows(&arguments[1..]),
        _ => Err(USAGE.to_string()),
    }
}

/// One family on so many inputs.
fn alone(family: Family, number: &str) -> Result<(u64, u64), String> {
    let inputs = number.parse().map_err(|_| format!("{number}: no number"))?;
    Ok(tallied([(family, inputs)]))
}

fn tallied(families: impl IntoIterator<Item = (Family, u64)>) -> (u64, u64) {
    let (mut passed, mut failed) = (0, 0);
    for (family, inputs) in families.into_iter().filter(|family| family.1 > 0) {
        let mut tally = family(inputs);
        tally.finish();
        passed += tally.passed;
        failed += tally.failed;
    }
    (passed, failed)
}

/// The second tool's refusal as a number.
fn number(refusal: Refusal) -> u64 {
    u64::from(refusal.0)
}

/// The struct that the library must answer: a refusal alone, or the values.
fn word_answer<T>(plain: Result<T, u64>, values: impl FnOnce(T) -> Answer) -> Answer {
    match plain {
        Ok(result) => values(result),
        Err(refusal) => Answer {
            refusal,
            ..Answer::default()
        },
    }
}

/// The same of a row: what is told of it, or a refusal alone.
fn row_answer(told: Result<RowAnswer, u64>) -> RowAnswer {
    told.unwrap_or_else(|refusal| RowAnswer {
        refusal,
        ..RowAnswer::default()
    })
}

/// A number as the second tool takes it.
fn size(number: u64) -> usize {
    usize::try_from(number).expect("a 64-bit machine")
}
