//! Rows, refusals, JSON, and tables as large as they must be.

use crate::run::{bytes_on, program, run, run_on};
use dso_ref::{row, Lent, Method, Order};
use std::io::Write;
use std::process::Stdio;

pub const EXAMPLE: &str = "\
ORDER 2 1 4 2 6 1 3
EVENTS 5
PATHS 13
A 1 0 0
A 2 0 0
A 3 4 0
A 4 5 1
A 5 4 0
CRC 0x5 1
";

/// Its order with d = 5, where 0x7 has the same counts.
pub const SHARED: &str = "\
ORDER 2 1 4 2 5 1 3
EVENTS 4
PATHS 9
A 1 0 0
A 2 0 0
A 3 4 0
A 4 5 1
CRC 0x5 2
";

pub const RECORD: [u8; 12] = [0, 10, 1, 2, 1, 4, 2, 6, 0, 1, 0, 3];

#[test]
fn the_example_of_document_01() {
    for run in [run("2 1 4 2 6 1 3"), run_on("-", &RECORD)] {
        assert_eq!(
            (run.status, run.out.as_str(), run.err.as_str()),
            (0, EXAMPLE, "")
        );
    }
}

#[test]
fn the_smallest_of_those_that_share_the_best_counts() {
    let run = run("2 1 4 2 5 1 3");
    let all = (run.status, run.out.as_str(), run.err.as_str());
    assert_eq!(all, (0, SHARED, ""));
    let last = |arguments| {
        let out = crate::run::run(arguments).out;
        out.lines().last().map(str::to_string)
    };
    // No path is below d: all 2^11 of degree 12, and all 8 of degree 4.
    let expected = Some("CRC 0x1001 2048".to_string());
    assert_eq!(last("2 3 20 12 2 13 17"), expected);
    let expected = Some("CRC 0x11 8".to_string());
    assert_eq!(last("--terminated 2 3 20 4 2 13 17"), expected);
}

#[test]
fn refusals_are_answers() {
    let refused = |arguments, line| {
        let run = run(arguments);
        assert_eq!((run.status, run.out.as_str()), (0, line), "{arguments}");
        assert!(
            run.err.starts_with("dso-row: refused by question"),
            "{}",
            run.err
        );
    };
    refused("1 1 4 2 6 3", "NO 3\n");
    refused("5 1 4 2 6 1 3 1 3 1", "NO 3\n");
    refused("2 9 4 2 6 1 3", "NO 4\n");
    refused("2 1 129 2 6 1 3", "NO 5\n");
    refused("2 1 99999999999 2 6 1 3", "NO 5\n");
    refused("2 1 12 12 6 1 3", "NO 6\n");
    refused("2 1 4 2 65 1 3", "NO 7\n");
    refused("2 1 4 2 6 1 4", "NO 8\n");
    refused("2 1 4 2 6 2 2", "NO 9\n");
    refused("2 1 4 2 6 3 3", "NO 16\n");
    refused("2 2 4 2 6 5 3", "NO 16\n");
    // Before the polynomial and the tables.
    refused("--of 0x4 2 2 4 2 6 5 3", "NO 16\n");
    refused("--events 0 --paths 0 2 2 4 2 6 5 3", "NO 16\n");
    refused("--of 0x4 2 1 4 2 6 1 3", "NO 11\n");
}

#[test]
fn damaged_records() {
    let long = vec![0; 70_000];
    for (bytes, line) in [
        (&[][..], "NO 1\n"),
        (&[0], "NO 1\n"),
        (&RECORD[..11], "NO 1\n"),
        (&long[..], "NO 1\n"),
        (&[0, 0], "NO 2\n"),
        (&[0, 1, 3], "NO 2\n"),
        (&[0, 1, 1], "NO 3\n"),
    ] {
        assert_eq!(run_on("-", bytes).out, line);
    }
}

#[test]
fn counts_of_one_polynomial() {
    let run = run("--of 0x7 2 1 4 2 6 1 3");
    // Compared with no other, it has the number 0.
    let expected = EXAMPLE.replace("A 5 4 0", "A 5 4 2");
    let expected = expected.replace("0x5 1", "0x7 0");
    assert_eq!((run.status, run.out), (0, expected));
    // And so has the best.
    let best = crate::run::run("--of 0x5 2 1 4 2 6 1 3").out;
    assert_eq!(best, EXAMPLE.replace("0x5 1", "0x5 0"));
}

#[test]
fn json() {
    let run = |arguments| crate::run::run(arguments).out;
    let counts = [(1, 0, 0), (2, 0, 0), (3, 4, 0), (4, 5, 1), (5, 4, 0)]
        .map(|(w, p, u)| format!(r#"{{"weight":{w},"plain":{p},"undetected":{u}}}"#));
    let order =
        r#""order":{"link":"tail-biting","n":2,"v":1,"N":4,"m":2,"d":6,"generators":["1","3"]}"#;
    let expected = format!(
        "{{{order},\"events\":5,\"paths\":13,\"counts\":[{}],\"crc\":\"0x5\",\"shared\":1}}\n",
        counts.join(",")
    );
    assert_eq!(run("--json 2 1 4 2 6 1 3"), expected);
    let of = run("--json --of 0x5 2 1 4 2 6 1 3");
    assert_eq!(of, expected.replace("\"shared\":1", "\"shared\":0"));
    let order = order.replace("\"d\":6", "\"d\":5");
    let expected = format!(
        "{{{order},\"events\":4,\"paths\":9,\"counts\":[{}],\"crc\":\"0x5\",\"shared\":2}}\n",
        counts[..4].join(",")
    );
    assert_eq!(run("2 1 4 2 5 1 3 --json"), expected);
    assert_eq!(run("--json 2 1 4 2 0 1 3"), "{\"refusal\":7}\n");
    assert_eq!(run("--json 2 1 4 2 6 3 3"), "{\"refusal\":16}\n");
}

#[test]
fn no_counts_below_weight_1() {
    let row = |shared| format!("ORDER 2 1 4 1 1 1 3\nEVENTS 1\nPATHS 0\nCRC 0x3 {shared}\n");
    for link in ["tail-biting", "terminated"] {
        let option = match link {
            "terminated" => "--terminated",
            _ => "",
        };
        let run = |options: &str| crate::run::run(&format!("{option} {options} 2 1 4 1 1 1 3"));
        for (options, shared) in [("", 1), ("--of 0x3", 0), ("--events 1 --paths 0", 1)] {
            let answer = run(options);
            assert_eq!((answer.status, answer.out), (0, row(shared)), "{options}");
        }
        let json = run("--json").out;
        let numbers = r#""n":2,"v":1,"N":4,"m":1,"d":1,"generators":["1","3"]"#;
        let found = r#""events":1,"paths":0,"counts":[],"crc":"0x3","shared":1"#;
        let expected = format!(r#"{{"order":{{"link":"{link}",{numbers}}},{found}}}"#);
        assert_eq!(json, expected + "\n");
        let signed = run("--checklist");
        assert_eq!(signed.status, 0, "{}", signed.out);
        assert!(signed
            .out
            .ends_with("best by the listed paths: 0x3, nothing undetected\n"));
    }
}

#[test]
fn one_count_below_weight_2() {
    let row = |count| format!("ORDER 2 4 4 2 2 7 21\nEVENTS 4\nPATHS 4\nA 1 4 {count}\n");
    assert_eq!(run("2 4 4 2 2 7 21").out, row(0) + "CRC 0x5 1\n");
    assert_eq!(run("--of 0x7 2 4 4 2 2 7 21").out, row(2) + "CRC 0x7 0\n");
    let signed = run("--checklist 2 4 4 2 2 7 21");
    assert_eq!(signed.status, 0, "{}", signed.out);
    let loss = "   0x7 loses at weight 1, 2 to 0: undetected 2 at 1\n";
    assert!(signed.out.ends_with(loss), "{}", signed.out);
}

#[test]
fn a_record_and_back() {
    let record = bytes_on("--record 2 1 4 2 6 1 3", b"").stdout;
    assert_eq!(record, RECORD);
    assert_eq!(run_on("-", &record).out, EXAMPLE);
    assert_eq!(bytes_on("--record -", &record).stdout, RECORD);
    assert_eq!(
        run("--record-hex 2 1 4 2 6 1 3").out,
        "00 0A 01 02 01 04 02 06 00 01 00 03\n"
    );
    assert_eq!(run("--record 2 1 4 2 0 1 3").out, "NO 7\n");
}

#[test]
fn the_second_tool_prints_the_same() {
    ORDERS.into_iter().for_each(second_tool);
}

/// Orders of several rates that the second tool answers soon.
pub const ORDERS: [&str; 5] = [
    "2 2 12 4 10 5 7",
    "2 3 20 6 14 13 17",
    "3 4 18 5 20 25 33 37",
    "4 1 9 3 12 1 3 3 2",
    "2 3 30 12 9 13 17",
];

/// The second tool prints the same for the order of these arguments.
pub fn second_tool(arguments: &str) {
    let record = bytes_on(&format!("--record {arguments}"), b"").stdout;
    let lent = Lent {
        events: 1 << 20,
        paths: 1 << 20,
    };
    let theirs = row::row(
        &Order::from_record(&record).unwrap(),
        lent,
        None,
        Method::Both,
    );
    let expected = match theirs {
        Ok(row) => row.to_string(),
        Err(dso_ref::Failure::Refused(refusal)) => refusal.to_string(),
        Err(other) => panic!("{other:?}"),
    };
    assert_eq!(run(arguments).out, expected + "\n", "{arguments}");
}

#[test]
fn tables_have_the_needed_size_at_once() {
    // Two tables that together just fit into 31 MiB.
    let run = run("--memory 31 2 3 70 6 18 13 17");
    assert_eq!((run.status, run.err.as_str()), (0, ""));
    let row = "ORDER 2 3 70 6 18 13 17\nEVENTS 15852\nPATHS 1940785\n";
    assert!(run.out.starts_with(row) && run.out.ends_with("CRC 0x63 1\n"));
}

/// The lines of a refusal before the order is run.
fn refused_before(needed: &str, memory: usize, question: &str) -> String {
    format!(
        "dso-row: the tables need {needed}: more than --memory {memory}\n\
         dso-row: refused by question {question} table takes\n"
    )
}

#[test]
fn what_an_order_needs_is_told_before_it_is_run() {
    let paths = "14: there are more paths than the path";
    let events = "13: there are more error events than the event";
    let table_1 = "15852 events and 1940785 paths, 31 MiB";
    let table_2 = "5079947 events and 882816 paths, 208 MiB";
    for (arguments, no, needed, memory, question) in [
        ("2 3 70 6 18 13 17", 14, table_1, 30, paths),
        ("--of 0x61 2 3 70 6 18 13 17", 14, table_1, 1, paths),
        ("--checklist 2 3 70 6 18 13 17", 14, table_1, 1, paths),
        ("2 8 76 12 21 561 753", 14, table_2, 194, paths),
        ("2 8 76 12 21 561 753", 13, table_2, 193, events),
    ] {
        let run = run(&format!("--memory {memory} {arguments}"));
        let refused = (run.status, run.out.as_str());
        assert_eq!(refused, (0, format!("NO {no}\n").as_str()), "{arguments}");
        let told = refused_before(needed, memory, question);
        assert_eq!(run.err, told, "{arguments}");
    }
    let all = run("2 8 128 12 64 561 753");
    assert_eq!((all.status, all.out.as_str()), (0, "NO 13\n"));
    let many = "18446744073709551615 or more";
    let needed = format!("need {many} events and {many} paths, 985162418487296 MiB: more");
    assert!(all.err.contains(&needed), "{}", all.err);
}

#[test]
fn a_wrong_polynomial_comes_before_the_tables() {
    let run = run("--memory 1 --of 0x42 2 3 70 6 18 13 17");
    assert_eq!((run.status, run.out.as_str()), (0, "NO 11\n"));
    assert!(!run.err.contains("--memory"));
}

#[test]
fn tables_of_the_sizes_given_do_not_grow() {
    let lent = |events, paths, order| {
        let run = run(&format!("--events {events} --paths {paths} {order}"));
        assert_eq!(run.status, 0);
        run.out
    };
    let order = "2 1 4 2 6 1 3";
    assert_eq!(lent(5, 13, order), EXAMPLE);
    assert_eq!(lent(5, 12, order), "NO 14\n");
    assert_eq!(lent(4, 13, order), "NO 13\n");
    assert_eq!(lent(0, 0, order), "NO 13\n");
    assert_eq!(lent(5, 12, &format!("--of 0x7 {order}")), "NO 14\n");
}

#[test]
fn a_closed_output_is_no_crash() {
    let mut child = program()
        .args(["--checklist", "-"])
        .stdin(Stdio::piped())
        .stdout(Stdio::piped())
        .stderr(Stdio::piped())
        .spawn()
        .unwrap();
    // Closed before the order comes, and so before anything is printed.
    drop(child.stdout.take());
    child.stdin.take().unwrap().write_all(&RECORD).unwrap();
    let output = child.wait_with_output().unwrap();
    assert_eq!(output.status.code(), Some(1));
    assert_eq!(output.stderr, b"");
}

#[test]
fn a_full_output_is_told() {
    let full = std::fs::File::options().write(true).open("/dev/full");
    let Ok(full) = full else {
        return;
    };
    let output = program().arg("--help").stdout(full).output().unwrap();
    assert_eq!(output.status.code(), Some(1));
    assert!(output.stderr.starts_with(b"dso-row: "));
}
