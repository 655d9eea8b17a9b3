//! Terminated links: rows, records, JSON, lists, checks and the checklist.

use crate::checklist::signed;
use crate::rows::{second_tool, ORDERS};
use crate::run::{bytes_on, run, run_on};

/// Code S, N = 3, on a terminated link.
const ROW: &str = "\
ORDER 2 1 3 2 6 1 3
EVENTS 4
PATHS 6
A 1 0 0
A 2 0 0
A 3 3 0
A 4 2 0
A 5 1 0
CRC 0x5 1
";

/// The same with d = 5, where 0x7 has the same counts.
const SHARED: &str = "\
ORDER 2 1 3 2 5 1 3
EVENTS 3
PATHS 5
A 1 0 0
A 2 0 0
A 3 3 0
A 4 2 0
CRC 0x5 2
";

const RECORD: [u8; 12] = [0, 10, 2, 2, 1, 3, 2, 6, 0, 1, 0, 3];

/// The row of the same order on a tail-biting link.
fn tail_biting() -> String {
    run("2 1 3 2 6 1 3").out
}

#[test]
fn the_row_of_code_s() {
    for run in [run("--terminated 2 1 3 2 6 1 3"), run_on("-", &RECORD)] {
        let all = (run.status, run.out.as_str(), run.err.as_str());
        assert_eq!(all, (0, ROW, ""));
    }
    assert_ne!(tail_biting(), ROW);
    let shared = run("--terminated 2 1 3 2 5 1 3");
    assert_eq!((shared.status, shared.out.as_str()), (0, SHARED));
}

#[test]
fn a_record_and_back() {
    let record = bytes_on("--record 2 1 3 2 6 1 3 --terminated", b"").stdout;
    assert_eq!(record, RECORD);
    assert_eq!(bytes_on("--record -", &record).stdout, RECORD);
    let hex = run("--terminated --record-hex 2 1 3 2 6 1 3").out;
    assert_eq!(hex, "00 0A 02 02 01 03 02 06 00 01 00 03\n");
}

#[test]
fn refusals() {
    let line = |arguments: &str| run(&format!("--terminated {arguments}")).out;
    assert_eq!(line("5 1 4 2 6 1 3 1 3 1"), "NO 3\n");
    assert_eq!(line("2 1 129 2 6 1 3"), "NO 5\n");
    assert_eq!(line("2 2 4 2 6 5 3"), "NO 16\n");
    assert_eq!(line("--of 0x4 2 1 3 2 6 1 3"), "NO 11\n");
    assert_eq!(line("--events 3 --paths 6 2 1 3 2 6 1 3"), "NO 13\n");
    assert_eq!(line("--events 4 --paths 5 2 1 3 2 6 1 3"), "NO 14\n");
    assert_eq!(line("--events 4 --paths 6 2 1 3 2 6 1 3"), ROW);
    let version_3 = [0, 10, 3, 2, 1, 3, 2, 6, 0, 1, 0, 3];
    let refused = run_on("-", &version_3);
    assert_eq!(refused.out, "NO 2\n");
    assert!(refused
        .err
        .contains("neither 1, tail-biting, nor 2, terminated"));
}

#[test]
fn json_says_the_kind() {
    let json = |arguments: &str| run(&format!("--json {arguments}")).out;
    let order = |link| format!(r#"{{"order":{{"link":"{link}","n":2,"v":1,"N":3,"#);
    assert!(json("--terminated 2 1 3 2 6 1 3").starts_with(&order("terminated")));
    assert!(json("2 1 3 2 6 1 3").starts_with(&order("tail-biting")));
    let record = run_on("--json -", &RECORD).out;
    assert_eq!(record, json("--terminated 2 1 3 2 6 1 3"));
}

#[test]
fn lines_of_a_price_list_say_their_kind() {
    let orders = "\
# of both kinds
terminated 2 1 3 2 6 1 3
2 1 3 2 6 1 3
  terminated ORDER 2 1 3 2 5 1 3
tail-biting ORDER 2 1 3 2 6 1 3
";
    let other = tail_biting();
    let (row, shared) = (format!("terminated {ROW}"), format!("terminated {SHARED}"));
    let list = run_on("--file -", orders.as_bytes());
    let expected = format!("{row}{other}{shared}{other}");
    assert_eq!((list.status, list.out), (0, expected));
    // The option is for the lines that say nothing.
    let list = run_on("--terminated --file -", orders.as_bytes()).out;
    assert_eq!(list, format!("{row}{row}{shared}{other}"));
    let json = run_on("--json --file -", orders.as_bytes()).out;
    let kinds: Vec<bool> = json
        .lines()
        .map(|line| line.contains(r#""link":"terminated""#))
        .collect();
    assert_eq!(kinds, [true, false, true, false]);
}

#[test]
fn a_row_that_holds_for_the_other_kind_is_told_as_that() {
    let check = |options: &str, rows: &str| {
        let run = run_on(&format!("{options} --check -"), rows.as_bytes());
        let first = run.out.lines().next().unwrap().to_string();
        (run.status, first)
    };
    let at = "row 1, ORDER 2 1 3 2 6 1 3:";
    assert_eq!(check("--terminated", ROW), (0, format!("{at} the same")));
    let now = "DIFFERS, line 3 of the row is \"PATHS 6\", now \"PATHS 7\"";
    let hint = "it is the row of a terminated link (see --terminated)";
    assert_eq!(check("", ROW), (3, format!("{at} {now}; {hint}")));
    let (status, said) = check("--terminated", &tail_biting());
    assert_eq!(status, 3);
    assert!(said.ends_with("; it is the row of a tail-biting link (see --terminated)"));
    // Of neither kind.
    let (status, said) = check("--terminated", &ROW.replace("PATHS 6", "PATHS 8"));
    assert_eq!(status, 3);
    assert!(said.ends_with("\"PATHS 8\", now \"PATHS 6\""), "{said}");
    // The option has nothing to do with a row that says its kind.
    let hint = "it is the row of a terminated link, and tail-biting stands before it";
    let at = "row 1, tail-biting ORDER 2 1 3 2 6 1 3:";
    let said = format!("{at} {now}; {hint}");
    assert_eq!(
        check("--terminated", &format!("tail-biting {ROW}")),
        (3, said)
    );
}

#[test]
fn a_refused_order_of_a_list_says_its_kind() {
    let orders = "terminated 2 1 3 2 0 1 3\n2 1 3 2 0 1 3\nterminated 2 8 128 4 64 561 753\n";
    let list = run_on("--memory 1 --file -", orders.as_bytes());
    let large = "terminated ORDER 2 8 128 4 64 561 753";
    let small = "ORDER 2 1 3 2 0 1 3\nNO 7\n";
    let expected = format!("terminated {small}{small}{large}\nNO 13\n");
    assert_eq!((list.status, list.out), (0, expected));
    let needed = format!("dso-row: {large}: the tables need ");
    assert!(list.err.starts_with(&needed), "{}", list.err);
}

#[test]
fn rows_may_have_their_kind_written_before_them() {
    let rows = format!("terminated {ROW}tail-biting {}{ROW}", tail_biting());
    let run = run_on("--terminated --check -", rows.as_bytes());
    assert_eq!(run.status, 0, "{}", run.out);
    assert!(run
        .out
        .starts_with("row 1, terminated ORDER 2 1 3 2 6 1 3: the same\n"));
}

#[test]
fn the_checklist_of_code_s() {
    let points = "
2. Every shift of a path is in the list
   weight 3: 3 paths, the shifts of 1: 0x1 (3 of 3)
   weight 4: 2 paths, the shifts of 1: 0x3 (2 of 2)
   weight 5: 1 paths, the shifts of 1: 0x7 (1 of 1)
   all weights: 6 of 6 paths, moved by one place either way, are in the list

3. Paths weighed over 4 steps, the last 1 of them zeros
   weight 3: 3 of 3; end in the zeros: 1, such as 0x4
   weight 4: 2 of 2; end in the zeros: 1, such as 0x6
   weight 5: 1 of 1; end in the zeros: 1, such as 0x7
   by the trellis, the lightest word that ends in the zeros weighs 3

4. Rivals, of 2 polynomials
   best by the listed paths: 0x5, nothing undetected
   0x7 loses at weight 5, 1 to 0: undetected 1 at 5
";
    signed("--terminated 2 1 3 2 6 1 3", ROW, points);
    for longest in [
        "2 8 128 1 13 561 753",
        "2 8 8 3 30 561 753",
        "3 2 40 5 18 5 7 7",
    ] {
        let list = run(&format!("--checklist --terminated {longest}"));
        assert_eq!(list.status, 0, "{longest}: {}", list.out);
    }
}

#[test]
fn the_second_tool_prints_the_same() {
    let longest = ["2 8 128 4 15 561 753", "2 8 8 7 64 561 753"];
    for order in ORDERS.into_iter().chain(longest) {
        second_tool(&format!("--terminated {order}"));
    }
}

#[test]
fn tables_have_the_needed_size_at_once() {
    // 11561 events and 1627283 paths.
    let run = run("--terminated --memory 26 2 3 70 6 18 13 17");
    assert_eq!((run.status, run.err.as_str()), (0, ""));
    let row = "ORDER 2 3 70 6 18 13 17\nEVENTS 11561\nPATHS 1627283\n";
    assert!(run.out.starts_with(row) && run.out.ends_with("CRC 0x43 1\n"));
}
