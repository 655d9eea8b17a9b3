//! Price lists, and rows that were printed before.

use crate::rows::{EXAMPLE, SHARED};
use crate::run::{file, program, run, run_on};

const ORDERS: &str = "\
# small codes
ORDER 2 1 4 2 6 1 3

2 1 4 2 5 1 3
  2 1 4 2 0 01 3
";

/// The rows of these orders.
fn rows() -> String {
    format!("{EXAMPLE}{SHARED}ORDER 2 1 4 2 0 1 3\nNO 7\n")
}

#[test]
fn one_row_after_another() {
    let list = run(&format!("--file {}", file("orders", ORDERS)));
    assert_eq!((list.status, list.out), (0, rows()));
    assert_eq!(run_on("--file -", ORDERS.as_bytes()).out, rows());
}

#[test]
fn a_list_as_json_and_of_one_polynomial() {
    let list = run_on("--json --file -", ORDERS.as_bytes()).out;
    let lines: Vec<&str> = list.lines().collect();
    assert_eq!(lines.len(), 3);
    assert!(lines[0].ends_with("\"crc\":\"0x5\",\"shared\":1}"));
    assert!(lines[1].ends_with("\"crc\":\"0x5\",\"shared\":2}"));
    let order =
        r#""order":{"link":"tail-biting","n":2,"v":1,"N":4,"m":2,"d":0,"generators":["1","3"]}"#;
    assert_eq!(lines[2], format!("{{{order},\"refusal\":7}}"));
    let of = run_on("--of 0x7 --file -", b"2 1 4 2 6 1 3").out;
    assert_eq!(of.lines().last(), Some("CRC 0x7 0"));
}

#[test]
fn a_wrong_line_is_named_before_any_row() {
    let run = run_on("--file -", b"2 1 4 2 6 1 3\n2 1 4 2 six 1 3\n");
    assert_eq!((run.status, run.out.as_str()), (2, ""));
    assert_eq!(
        run.err,
        "dso-row: -, line 2: six: d is not a decimal number\n"
    );
    let empty = run_on("--file -", b"# nothing\n");
    assert_eq!(
        (empty.status, empty.err.as_str()),
        (2, "dso-row: -, no order in it\n")
    );
}

#[test]
fn rows_that_are_right() {
    let run = run(&format!("--check {}", file("right", &rows())));
    let expected = "\
row 1, ORDER 2 1 4 2 6 1 3: the same
row 2, ORDER 2 1 4 2 5 1 3: the same
row 3, ORDER 2 1 4 2 0 1 3: the same
rows checked: 3, different: 0
";
    assert_eq!((run.status, run.out.as_str()), (0, expected));
}

/// What is said of the example's row where this stands for that.
fn changed(from: &str, to: &str) -> String {
    assert!(EXAMPLE.contains(from));
    let run = run_on("--check -", EXAMPLE.replace(from, to).as_bytes());
    assert_eq!(run.status, 3);
    assert!(run.out.ends_with("rows checked: 1, different: 1\n"));
    run.out.lines().next().unwrap().to_string()
}

#[test]
fn a_changed_digit() {
    let said = changed("A 4 5 1", "A 4 5 0");
    let expected = "line 7 of the row is \"A 4 5 0\", now \"A 4 5 1\"";
    assert_eq!(
        said,
        format!("row 1, ORDER 2 1 4 2 6 1 3: DIFFERS, {expected}")
    );
    assert!(changed("0x5 1", "0x7 1").ends_with("is \"CRC 0x7 1\", now \"CRC 0x5 1\""));
    assert!(changed("0x5 1", "0x5 2").ends_with("is \"CRC 0x5 2\", now \"CRC 0x5 1\""));
    assert!(changed("0x5 1", "0x5 0").ends_with("is \"CRC 0x5 0\", now \"CRC 0x5 1\""));
    assert!(
        changed("PATHS 13\n", "").ends_with("line 3 of the row is \"A 1 0 0\", now \"PATHS 13\"")
    );
    assert!(changed("CRC 0x5 1\n", "").ends_with("line 9 of the row is nothing, now \"CRC 0x5 1\""));
    assert!(changed("CRC", "A 6 0 0\nCRC").contains("line 9 of the row is \"A 6 0 0\""));
    assert!(changed("6 1 3", "6 1 03").contains("line 1 of the row"));
    assert!(changed("6 1 3", "6 1 9").ends_with("it is no order: 9: not an octal generator"));
    assert!(changed("A 1 0 0\n", "A 1 0 0 \n").contains("line 4 of the row is \"A 1 0 0 \""));
}

#[test]
fn only_the_wrong_row_differs() {
    let text = rows().replace("CRC 0x5 2", "CRC 0x7 2");
    let run = run_on("--check -", text.as_bytes());
    assert_eq!(run.status, 3);
    let lines: Vec<&str> = run.out.lines().collect();
    assert!(lines[0].ends_with("the same") && lines[2].ends_with("the same"));
    let how = "DIFFERS, line 8 of the row is \"CRC 0x7 2\", now \"CRC 0x5 2\"";
    assert!(lines[1].ends_with(how), "{}", lines[1]);
}

#[test]
fn an_order_does_not_feel_the_one_before() {
    // The events of the first pass 1 MiB, the two others just fit.
    let (events, paths) = ("2 8 76 12 21 561 753", "2 3 70 6 14 13 17");
    let orders = format!("{paths}\n{events}\n{paths}\n");
    let list = run_on("--memory 1 --file -", orders.as_bytes());
    let alone = run(&format!("--memory 1 {paths}")).out;
    assert_eq!(list.out, format!("{alone}ORDER {events}\nNO 13\n{alone}"));
    let needed = "5079947 events and 882816 paths, 208 MiB: more than --memory 1";
    let told = format!("dso-row: ORDER {events}: the tables need {needed}\n");
    assert_eq!(list.err, told);
}

/// Orders of all kinds: long and short in turn, refusals and shared counts.
fn mixed() -> String {
    (0..40)
        .map(|k| match k % 4 {
            0 => format!("2 3 {} 6 12 13 17\n", 70 - k),
            1 => format!("2 1 4 2 {} 1 3\n", k % 11),
            2 => format!("3 2 {} 4 {} 5 7 7\n", 6 + k, 5 + k % 9),
            _ => format!("2 6 40 6 {} 133 171\n", 8 + k % 5),
        })
        .collect()
}

#[test]
fn any_number_of_jobs_prints_the_same() {
    let orders = mixed();
    for options in ["", "--json", "--of 0x43", "--events 100 --paths 2000"] {
        let of = |jobs| {
            let arguments = format!("{options} --jobs {jobs} --file -");
            let run = run_on(&arguments, orders.as_bytes());
            assert_eq!((run.status, run.err.as_str()), (0, ""), "{arguments}");
            run.out
        };
        let alone = of(1);
        assert!(alone.lines().count() >= 40);
        for jobs in [2, 3, 1000] {
            assert!(of(jobs) == alone, "{options} --jobs {jobs}");
        }
    }
}

#[test]
fn any_number_of_jobs_checks_the_same() {
    let rows = run_on("--file -", mixed().as_bytes()).out;
    let rows = rows.replace("EVENTS 357\n", "EVENTS 356\n");
    let of = |jobs| run_on(&format!("--check - --jobs {jobs}"), rows.as_bytes());
    let alone = of(1);
    assert_eq!((alone.status, alone.out.lines().count()), (3, 41));
    assert!(alone.out.contains("DIFFERS") && alone.out.contains("the same"));
    for jobs in [2, 5] {
        assert!(of(jobs).out == alone.out, "--jobs {jobs}");
    }
}

/// Orders of both kinds of link, right ones and those that questions 3 to 9 and
/// 16 refuse, with N around the lengths that are quoted.
fn both_kinds() -> String {
    let orders = [
        "2 1 4 2 6 1 3",
        "2 1 3 2 6 1 3",
        "2 1 4 2 5 1 3",
        "2 3 70 6 12 13 17",
        "2 3 40 6 14 13 17",
        "3 2 20 4 9 5 7 7",
        "5 1 4 2 6 1 3 1 3 1",
        "2 9 40 2 6 1 3",
        "2 1 129 2 6 1 3",
        "2 1 4 4 6 1 3",
        "2 1 4 2 0 1 3",
        "2 1 4 2 6 1 4",
        "2 1 4 2 6 2 2",
        "2 2 40 2 6 5 3",
        "2 8 76 12 21 561 753",
    ];
    let kinds = ["", "terminated ", "tail-biting ORDER ", "terminated ORDER "];
    let lines = orders.iter().zip(kinds.iter().cycle());
    let first = lines.map(|(order, kind)| format!("{kind}{order}\n"));
    let again = orders.iter().map(|order| format!("terminated {order}\n"));
    first.chain(again).collect()
}

#[test]
fn a_list_is_the_same_when_it_is_checked() {
    let orders = both_kinds();
    for (list, check) in [
        ("", ""),
        ("--terminated", ""),
        ("--quote 70,64", ""),
        ("--terminated --quote 40,7,3", ""),
        ("--quote 4,3,0,5,20,128,129", ""),
        ("--lengths 20,7,3", ""),
        (
            "--terminated --lengths 9,8 --lengths 4,5 --lengths 129,4",
            "",
        ),
        ("--of 0x43", "--of 0x43"),
        ("--events 60 --paths 50", "--events 60 --paths 50"),
        ("--events 4 --paths 50 --quote 3", "--events 4 --paths 50"),
    ] {
        let (list, check) = (format!("--memory 1 {list}"), format!("--memory 1 {check}"));
        let rows = run_on(&format!("{list} --file -"), orders.as_bytes()).out;
        assert!(rows.contains("terminated ORDER ") && rows.contains("NO "));
        let run = run_on(&format!("{check} --check -"), rows.as_bytes());
        let lines: Vec<&str> = run.out.lines().collect();
        let (last, said) = lines.split_last().unwrap();
        for line in said {
            assert!(line.ends_with(": the same"), "{list}: {line}");
        }
        assert!(said.len() >= 30 && last.ends_with(", different: 0"));
        assert_eq!(run.status, 0, "{list}");
    }
}

#[test]
fn jobs_share_the_memory() {
    // Each needs more than half of it: they wait, and none is refused.
    let order = "2 3 70 6 14 13 17";
    let orders = format!("{order}\n").repeat(6);
    let list = run_on("--memory 1 --jobs 6 --file -", orders.as_bytes());
    assert_eq!((list.status, list.err.as_str()), (0, ""));
    assert_eq!(list.out, run(order).out.repeat(6));
}

#[test]
fn a_list_whose_output_is_full_ends() {
    let Ok(full) = std::fs::File::options().write(true).open("/dev/full") else {
        return;
    };
    let orders = file(
        "full",
        "2 1 4 2 6 1 3\n2 3 70 6 18 13 17\n2 8 76 12 21 561 753\n",
    );
    let list = program()
        .args(["--jobs", "3", "--file", &orders])
        .stdout(full)
        .output()
        .unwrap();
    assert_eq!(list.status.code(), Some(1));
    assert!(list.stderr.starts_with(b"dso-row: "));
}

#[test]
fn rows_of_one_polynomial() {
    let row = run("--of 0x7 2 1 4 2 6 1 3").out;
    assert_eq!(run_on("--check - --of 0x7", row.as_bytes()).status, 0);
    assert_eq!(run_on("--check -", row.as_bytes()).status, 3);
}

#[test]
fn what_is_no_list_of_rows() {
    let none = run_on("--check -", b"\n");
    assert_eq!(
        (none.status, none.err.as_str()),
        (2, "dso-row: -, no row in it\n")
    );
    let alone = run_on("--check -", b"NO 14\n");
    assert_eq!(alone.status, 2);
    assert_eq!(
        alone.err,
        "dso-row: -, \"NO 14\": no ORDER line before it\n"
    );
}
