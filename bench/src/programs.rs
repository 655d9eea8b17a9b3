//! Whole runs of `dso-row`: beside the library's call on the same order, and of
//! a price list on one processor and on two.

use crate::clock::programs_nanoseconds;
use crate::lent::{self, Lent};
use crate::orders::Order;
use crate::plain::search::Best;
use crate::turns::{time, Turns};
use std::process::Command;
use std::time::Instant;

/// Where the Rust host leaves the program; `bench/run` builds it.
const DSO_ROW: &str = concat!(
    env!("CARGO_MANIFEST_DIR"),
    "/../hosts/rust/target/release/dso-row"
);

/// The price list.
pub const LIST: &str = concat!(env!("CARGO_MANIFEST_DIR"), "/orders.txt");

/// How many orders the price list has.
pub fn orders() -> usize {
    let text = std::fs::read_to_string(LIST).expect("the price list");
    text.lines()
        .filter(|line| line.starts_with("ORDER"))
        .count()
}

/// The processor time of a run of `dso-row`, and that of the library's search
/// alone, in tables that are there before it.
pub fn beside_the_call(turns: usize, order: Order) -> Turns {
    let [g1, g2] = order.generators.map(|g| format!("{g:o}"));
    let numbers = [2, order.v, order.bits, order.m, order.d].map(|number| number.to_string());
    let mut arguments = vec![order.link.to_string()];
    arguments.extend(numbers);
    arguments.extend([g1, g2]);
    let mut lent = Lent::new(order);
    let mut times = Turns::default();
    for _ in 0..turns {
        let before = programs_nanoseconds();
        let printed = dso_row(&arguments);
        let program = (programs_nanoseconds() - before) as f64;
        let (library, found) = time(|| lent::library_search(&mut lent));
        let Best { polynomial, shared } = found.expect("tables large enough");
        let last = format!("CRC 0x{polynomial:X} {shared}\n");
        assert!(printed.ends_with(&last), "{printed}");
        times.push(program, library);
    }
    times
}

/// The time that a clock on the wall shows for the price list, on one processor
/// and on two.
pub fn one_and_two_jobs(turns: usize) -> Turns {
    let mut times = Turns::default();
    for _ in 0..turns {
        let [(one, alone), (two, together)] = ["1", "2"].map(|jobs| {
            let start = Instant::now();
            let rows = dso_row(&["--jobs", jobs, "--file", LIST].map(String::from));
            (start.elapsed().as_nanos() as f64, rows)
        });
        assert!(alone == together, "the rows differ");
        times.push(one, two);
    }
    times
}

fn dso_row(arguments: &[String]) -> String {
    let output = Command::new(DSO_ROW).args(arguments).output();
    let output = output.expect("dso-row, which bench/run builds");
    assert!(output.status.success(), "dso-row {arguments:?}");
    String::from_utf8(output.stdout).expect("text")
}
