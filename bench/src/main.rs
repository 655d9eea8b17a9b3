//! `bench`: the library and plain Rust of the same method side by side, and
//! whole runs of `dso-row`, as tables in Markdown. A benchmark and no test.
//!
//! The two take turns, so that both meet the same weather; a row has the median
//! turn of either, and the median ratio of neighbouring turns with the middle
//! half of them as its spread. Times are the processor's for this thread: what
//! else runs there is not counted. In the first turn the answers and all tables
//! are compared: a time is worth nothing where the two do not do the same.

mod clock;
mod lent;
mod orders;
mod plain;
mod programs;
mod quotes;
mod sets;
mod small;
mod turns;
mod words;

use dohvrin::Link;
use lent::Lent;
use orders::{Order, BY_D, BY_N, LONG, MIDDLE, QUOTES, SETS, TABLE_1, TABLE_2, TERMINATED};
use std::fmt::Debug;
use std::process::ExitCode;
use turns::{shown, time, Turns};

/// The two sides of most tables.
const RACE: [&str; 2] = ["library", "plain Rust"];

/// A call of one side, and its answer.
type Call<T> = fn(&mut Lent) -> T;

fn main() -> ExitCode {
    let arguments: Vec<String> = std::env::args().skip(1).collect();
    match arguments.iter().map(String::as_str).collect::<Vec<_>>()[..] {
        [] => {
            searches(7);
            shorter(21);
            several(7);
            runs(7);
            listings(7);
            collections(15, 101);
            calls(101);
            growth(7, &BY_N, &BY_D);
            small::slowest(1000);
        }
        ["--quick"] => {
            searches(1);
            shorter(3);
            several(1);
            runs(1);
            collections(1, 11);
            calls(11);
            growth(1, &BY_N, &BY_D[..3]);
            small::slowest(50);
        }
        ["--quotes"] => shorter(101),
        ["--sets"] => several(21),
        ["--words"] => calls(301),
        _ => {
            eprintln!("usage: bench/run [--quick | --quotes | --sets | --words]");
            return ExitCode::from(2);
        }
    }
    ExitCode::SUCCESS
}

fn searches(turns: usize) {
    head("The whole search", "paths", RACE);
    search(turns, &[TABLE_1, LONG, TABLE_2]);
    search(turns, &TERMINATED);
}

/// Shorter lengths from the events of an order.
fn shorter(turns: usize) {
    let sides = ["quote", "fresh search"];
    let title = "A shorter length, from the events for N (its listing alone: without \
                 collecting and choosing, which both do)";
    head(title, "paths", sides);
    for quote in QUOTES {
        let (name, paths) = (name_of(&quote.long), quote.short.paths);
        let times = quotes::beside_a_search(turns, quote);
        let name = format!("{name} · quoted at {}", quote.short.bits);
        row(&name, paths, &times.whole);
        row("its listing alone", paths, &times.listing);
    }
}

/// One polynomial for several lengths.
fn several(turns: usize) {
    let sides = ["set", "searches"];
    let title = "One polynomial for a set of lengths, beside a search for each of them";
    head(title, "paths", sides);
    for set in SETS {
        let (paths, times) = sets::beside_the_searches(turns, set);
        let lengths: Vec<String> = set.lengths.iter().map(u64::to_string).collect();
        let name = format!("{} · at {}", name_of(&set.order), lengths.join(", "));
        row(&name, paths, &times);
    }
}

/// Whole runs of `dso-row`.
fn runs(turns: usize) {
    let sides = ["dso-row", "the call"];
    head("`dso-row`, beside the library's call alone", "paths", sides);
    for order in [TABLE_1, TABLE_2] {
        let times = programs::beside_the_call(turns, order);
        row(&name_of(&order), order.paths, &times);
    }
    let sides = ["1 job", "2 jobs"];
    head("A price list, by a clock on the wall", "orders", sides);
    let times = programs::one_and_two_jobs(turns);
    row("`bench/orders.txt`", programs::orders(), &times);
}

fn listings(turns: usize) {
    head("Listing paths, its collection included", "paths", RACE);
    for order in [TABLE_1, TABLE_2].into_iter().chain(TERMINATED) {
        let times = race(turns, order, lent::library_list, lent::plain_list);
        row(&name_of(&order), order.paths, &times);
    }
}

/// So few turns of the large one, so many of the others.
fn collections(few: usize, many: usize) {
    head("Collecting error events", "events", RACE);
    let [terminated_1, terminated_2] = TERMINATED;
    for (turns, order) in [
        (many, TABLE_1),
        (many, MIDDLE),
        (few, TABLE_2),
        (many, terminated_1),
        (many, terminated_2),
    ] {
        let times = race(turns, order, lent::library_collect, lent::plain_collect);
        row(&name_of(&order), order.events, &times);
    }
}

fn calls(turns: usize) {
    head(
        "Calls on one word, 13, 17 where no other code is named",
        "calls a turn",
        RACE,
    );
    for (name, times) in words::all(turns) {
        row(name, words::CALLS, &times);
    }
}

fn growth(turns: usize, by_n: &[Order], by_d: &[Order]) {
    grown("The whole search by N, 13, 17 · m=6 · d=14");
    for &order in by_n {
        grown_row(&format!("N={}", order.bits), order, turns);
    }
    grown("The whole search by d, 13, 17 · N=70 · m=6");
    for &order in by_d {
        grown_row(&format!("d={}", order.d), order, turns);
    }
}

/// The head of a table with a column more: the library's nanoseconds a path.
fn grown(title: &str) {
    let [one, other] = RACE;
    println!("\n{title}:\n");
    println!("| | paths | {one} | {other} | ratio | {one}, a path |");
    println!("|---|---|---|---|---|---|");
}

fn grown_row(name: &str, order: Order, turns: usize) {
    let times = race(turns, order, lent::library_search, lent::plain_search);
    let each = shown(times.first() / order.paths as f64);
    let paths = grouped(order.paths);
    println!("| {name} | {paths} | {} | {each} |", times.cells());
}

fn search(turns: usize, orders: &[Order]) {
    for &order in orders {
        let times = race(turns, order, lent::library_search, lent::plain_search);
        row(&name_of(&order), order.paths, &times);
    }
}

/// Both on one order, turn by turn.
fn race<T: Debug + PartialEq>(
    turns: usize,
    order: Order,
    library: Call<T>,
    plain: Call<T>,
) -> Turns {
    let mut lent = Lent::new(order);
    let mut times = Turns::default();
    for turn in 0..turns {
        let (ours, answer) = time(|| library(&mut lent));
        let left = (turn == 0).then(|| lent.left());
        let (theirs, expected) = time(|| plain(&mut lent));
        times.push(ours, theirs);
        if let Some(left) = left {
            assert_eq!(answer, expected, "{}", name_of(&order));
            let same = left == lent.left() && lent.same_paths();
            assert!(same, "{}: the tables differ", name_of(&order));
        }
    }
    times
}

fn name_of(order: &Order) -> String {
    let [g1, g2] = order.generators;
    let Order { bits, m, d, .. } = order;
    let link = match order.link {
        Link::TailBiting => String::new(),
        link => format!(" · {link}"),
    };
    format!("{g1:o}, {g2:o} · N={bits} · m={m} · d={d}{link}")
}

fn head(title: &str, size: &str, [one, other]: [&str; 2]) {
    println!("\n{title}:\n");
    println!("| | {size} | {one} | {other} | ratio |");
    println!("|---|---|---|---|---|");
}

fn row(name: &str, size: usize, times: &Turns) {
    println!("| {name} | {} | {} |", grouped(size), times.cells());
}

/// A number with a comma before each three digits.
fn grouped(number: usize) -> String {
    match number {
        0..=999 => number.to_string(),
        _ => format!("{},{:03}", grouped(number / 1000), number % 1000),
    }
}
