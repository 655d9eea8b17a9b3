//! Shorter lengths, quoted from the events of a longer order.

use crate::rows::{EXAMPLE, ORDERS, RECORD};
use crate::run::{run, run_on};
use dso_ref::{quote, Lent, Method, Order};

/// Code S, N = 3: quoted from N = 4, and what an order of its own gives.
const ROW: &str = "\
ORDER 2 1 3 2 6 1 3
EVENTS 4
PATHS 7
A 1 0 0
A 2 0 0
A 3 4 0
A 4 3 1
A 5 0 0
CRC 0x5 1
";

#[test]
fn the_row_of_code_s() {
    for run in [
        run("--quote 3 2 1 4 2 6 1 3"),
        run("2 1 4 2 6 1 3 --quote 3"),
        run_on("--quote 3 -", &RECORD),
        run("2 1 3 2 6 1 3"),
    ] {
        let all = (run.status, run.out.as_str(), run.err.as_str());
        assert_eq!(all, (0, ROW, ""));
    }
}

#[test]
fn the_smallest_of_those_that_share_the_best_counts_for_the_length() {
    let row = "ORDER 2 1 3 2 3 1 3\nEVENTS 2\nPATHS 0\nA 1 0 0\nA 2 0 0\nCRC 0x5 2\n";
    for arguments in ["--quote 3 2 1 4 2 3 1 3", "2 1 3 2 3 1 3"] {
        let run = run(arguments);
        let all = (run.status, run.out.as_str(), run.err.as_str());
        assert_eq!(all, (0, row, ""), "{arguments}");
    }
}

/// The order of these words with this N.
fn with_length(order: &str, length: &str) -> String {
    let mut words: Vec<&str> = order.split(' ').collect();
    words[2] = length;
    words.join(" ")
}

/// What is printed for each of these lengths alone, by an order of its own; a
/// refused one under its ORDER line, as in a list.
fn fresh(options: &str, order: &str, lengths: &[&str]) -> String {
    let one = |length: &&str| {
        let order = with_length(order, length);
        if options != "--checklist" {
            return run_on(&format!("{options} --file -"), order.as_bytes()).out;
        }
        let signed = run(&format!("{options} {order}")).out;
        let head = match signed.starts_with("NO") {
            true => format!("ORDER {order}\n"),
            false => String::new(),
        };
        head + &signed
    };
    lengths.iter().map(one).collect()
}

#[test]
fn several_lengths_print_what_orders_of_their_own_print() {
    for (order, lengths) in [
        ("2 1 4 2 5 1 3", "4,3"),
        ("2 3 128 6 12 13 17", "70,64,40,7,128"),
        ("3 4 30 5 16 25 33 37", "6,29,30,12"),
        ("4 1 9 3 12 1 3 3 2", "4,5,6,7,8,9"),
        ("2 8 40 3 14 561 753", "8,9,39"),
    ] {
        let alone: Vec<&str> = lengths.split(',').collect();
        for options in ["", "--json", "--checklist", "--events 60000 --paths 60000"] {
            let expected = fresh(options, order, &alone);
            let together = run(&format!("{options} --quote {lengths} {order}"));
            assert_eq!((together.status, &together.out), (0, &expected), "{order}");
            let words = alone.join(" --quote ");
            let repeated = run(&format!("{options} --quote {words} {order}"));
            assert_eq!(repeated.out, expected, "{order}");
        }
    }
}

#[test]
fn the_second_tool_prints_the_same() {
    for order in ORDERS {
        let record = run(&format!("--record-hex {order}")).out;
        let pairs = record.split_whitespace();
        let bytes: Vec<u8> = pairs
            .map(|pair| u8::from_str_radix(pair, 16).unwrap())
            .collect();
        let theirs = Order::from_record(&bytes).unwrap();
        let lent = Lent {
            events: 1 << 20,
            paths: 1 << 20,
        };
        for length in 0..=theirs.length() + 1 {
            let expected = match quote::row(&theirs, length, lent, Method::Both) {
                Ok(row) => row.to_string(),
                Err(dso_ref::Failure::Refused(refusal)) => refusal.to_string(),
                Err(other) => panic!("{other:?}"),
            };
            let ours = run(&format!("--quote {length} {order}")).out;
            assert_eq!(ours, expected + "\n", "{order}, {length}");
        }
    }
}

#[test]
fn refusals_are_answers_and_do_not_end_it() {
    let line = |arguments: &str| {
        let run = run(arguments);
        assert_eq!(run.status, 0, "{arguments}");
        assert!(run.err.contains("refused by question"), "{arguments}");
        run.out
    };
    for length in ["0", "5", "128", "129", "18446744073709551615"] {
        assert_eq!(line(&format!("--quote {length} 2 1 4 2 6 1 3")), "NO 5\n");
    }
    assert_eq!(line("--quote 2 2 1 4 2 6 1 3"), "NO 6\n");
    assert_eq!(line("--quote 2 2 3 4 2 6 13 17"), "NO 5\n");
    assert_eq!(line("--quote 3 2 1 4 2 65 1 3"), "NO 7\n");
    assert_eq!(line("--quote 3 2 1 4 2 6 3 3"), "NO 16\n");
    assert_eq!(line("--terminated --quote 3 2 1 4 2 6 1 3"), "NO 2\n");
    // The questions of the quote, in their order: m is wrong, too, and n.
    assert_eq!(line("--quote 5 2 1 4 4 6 1 3"), "NO 5\n");
    assert_eq!(line("--terminated --quote 3 1 1 4 2 6 3"), "NO 2\n");
    assert_eq!(
        line("--quote 5,3,2 2 1 4 2 6 1 3"),
        format!("ORDER 2 1 5 2 6 1 3\nNO 5\n{ROW}ORDER 2 1 2 2 6 1 3\nNO 6\n")
    );
    let json = run("--json --quote 5,2 2 1 4 2 6 1 3").out;
    let refused: Vec<&str> = json.lines().collect();
    assert!(
        refused[0].contains("\"N\":5") && refused[0].ends_with("\"refusal\":5}"),
        "{json}"
    );
    assert!(
        refused[1].contains("\"N\":2") && refused[1].ends_with("\"refusal\":6}"),
        "{json}"
    );
    let mut terminated = RECORD;
    terminated[2] = 2;
    assert_eq!(run_on("--quote 3 -", &terminated).out, "NO 2\n");
    assert_eq!(run_on("--quote 3,4 -", &RECORD[..11]).out, "NO 1\n");
}

#[test]
fn tables_take_the_events_of_the_order_and_the_paths_of_the_length() {
    let lent = |events, paths| {
        let order = "2 1 4 2 6 1 3";
        run(&format!(
            "--events {events} --paths {paths} --quote 3 {order}"
        ))
        .out
    };
    assert_eq!(lent(5, 7), ROW);
    assert_eq!(lent(5, 6), "NO 14\n");
    assert_eq!(lent(4, 7), "NO 13\n");
    // 5079947 events for N = 76, far fewer for 16: 13 is about N, 14 is not.
    let order = "2 8 76 5 21 561 753";
    let events = run(&format!("--memory 193 --quote 16 {order}"));
    assert_eq!((events.status, events.out.as_str()), (0, "NO 13\n"));
    let needed = "the tables need 5079947 events and 63150 paths, 195 MiB";
    assert!(events.err.contains(needed), "{}", events.err);
    let paths = run(&format!("--memory 194 --quote 16 {order}"));
    assert_eq!((paths.status, paths.out.as_str()), (0, "NO 14\n"));
    let both = run(&format!("--memory 195 --quote 16 {order}"));
    assert_eq!(both.out, run(&with_length(order, "16")).out);
    assert_eq!((both.status, both.err.as_str()), (0, ""));
}

#[test]
fn each_order_of_a_list_gives_a_row_for_each_length() {
    let orders = "2 1 4 2 6 1 3\nterminated 2 1 4 2 6 1 3\n2 1 3 2 6 1 3\n2 1 4 3 6 1 3\n";
    let refused = |first: &str, number: u64| format!("quote {first}\nNO {number}\n");
    let expected = [
        EXAMPLE.to_string(),
        ROW.to_string(),
        refused("4 terminated ORDER 2 1 4 2 6 1 3", 2),
        refused("3 terminated ORDER 2 1 4 2 6 1 3", 2),
        refused("4 ORDER 2 1 3 2 6 1 3", 5),
        ROW.to_string(),
        run_on("--file -", b"2 1 4 3 6 1 3").out,
        refused("3 ORDER 2 1 4 3 6 1 3", 6),
    ]
    .concat();
    for jobs in [1, 2, 100] {
        let arguments = format!("--jobs {jobs} --quote 4,3 --file -");
        let list = run_on(&arguments, orders.as_bytes());
        assert_eq!((list.status, list.out), (0, expected.clone()));
    }
    let json = run_on("--json --quote 4,3 --file -", orders.as_bytes()).out;
    assert_eq!(json.lines().count(), 8);
    assert_eq!(
        json.lines().nth(1),
        run("--json 2 1 3 2 6 1 3").out.lines().next()
    );
}

#[test]
fn quoted_rows_are_checked_as_any_others() {
    let rows = run_on("--quote 70,40,20 --file -", b"2 3 128 6 12 13 17").out;
    let check = run_on("--check -", rows.as_bytes());
    assert_eq!(check.status, 0, "{}", check.out);
    assert!(check.out.ends_with("rows checked: 3, different: 0\n"));
}

#[test]
fn a_refused_quote_is_checked_as_a_quote() {
    let check = |options: &str, row: &str| {
        let run = run_on(&format!("{options} --check -"), row.as_bytes());
        let first = run.out.lines().next().unwrap().to_string();
        (run.status, first)
    };
    // An order of its own has a row for each of these lengths.
    for (head, number) in [
        ("quote 5 ORDER 2 1 4 2 6 1 3", 5),
        ("quote 4 ORDER 2 1 129 2 6 1 3", 5),
        ("quote 3 terminated ORDER 2 1 4 2 6 1 3", 2),
    ] {
        let same = (0, format!("row 1, {head}: the same"));
        assert_eq!(check("", &format!("{head}\nNO {number}\n")), same);
        let how = format!("line 2 of the row is \"NO 6\", now \"NO {number}\"");
        let differs = (3, format!("row 1, {head}: DIFFERS, {how}"));
        assert_eq!(check("", &format!("{head}\nNO 6\n")), differs);
    }
    // Refused by 13 for N = 4, where N' = 3 alone would have room.
    let row = "quote 3 ORDER 2 1 4 2 6 1 3\nNO 13\n";
    let same = "row 1, quote 3 ORDER 2 1 4 2 6 1 3: the same".to_string();
    assert_eq!(check("--events 4 --paths 7", row), (0, same));
    let (status, said) = check("", row);
    assert_eq!(status, 3);
    let how = "line 2 of the row is \"NO 13\", now \"EVENTS 4\"";
    assert!(said.ends_with(how), "{said}");
    let (status, said) = check("", "quote 3 ORDER 2 1 4 2 9 1 3 1\nNO 3\n");
    assert_eq!(status, 3);
    assert!(said.ends_with("n is 2, but the generators are 3"), "{said}");
}
