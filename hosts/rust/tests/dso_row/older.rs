//! `--check` on rows of the older form: without the number after the polynomial,
//! and before that with a line of weight 0 after PATHS.

use crate::rows::{EXAMPLE, SHARED};
use crate::run::{run, run_on};

/// A row, or several, with the line of weight 0.
fn with_line(rows: &str) -> String {
    let line = |line: &str| match line.starts_with("PATHS ") {
        true => format!("{line}\nA 0 0 0\n"),
        false => format!("{line}\n"),
    };
    rows.lines().map(line).collect()
}

/// A row, or several, without the number.
fn without_number(rows: &str) -> String {
    let line = |line: &str| match line.starts_with("CRC ") {
        true => format!("{}\n", line.rsplit_once(' ').unwrap().0),
        false => format!("{line}\n"),
    };
    rows.lines().map(line).collect()
}

/// A row, or several, as the oldest form has them.
fn oldest(rows: &str) -> String {
    with_line(&without_number(rows))
}

/// The exit status, and what is said of the first row after its order; the last
/// line counts it as different where the status says so.
fn check(options: &str, row: &str) -> (i32, String) {
    let run = run_on(&format!("{options} --check -"), row.as_bytes());
    let different = usize::from(run.status == 3);
    let last = format!("rows checked: 1, different: {different}\n");
    assert!(run.out.ends_with(&last), "{}", run.out);
    let (_, said) = run.out.lines().next().unwrap().split_once(": ").unwrap();
    (run.status, said.to_string())
}

/// The same, but of the older form, in this.
fn passed(how: &str) -> (i32, String) {
    (0, format!("the same, but of the older form: {how}"))
}

/// What is said of the line, and of the number where it is this one now.
const LINE: &str = "with a line of weight 0";

fn number(now: u64) -> String {
    format!("without how many share the counts (now {now})")
}

fn both(now: u64) -> String {
    format!("{LINE}, {}", number(now))
}

/// It differs in a line, whose number is that in the row as it is given.
fn differs(row: &str, number: usize, line: &str, now: &str) {
    let expected = format!("DIFFERS, line {number} of the row is {line}, now {now}");
    assert_eq!(check("", row), (3, expected), "{row}");
    let given = row.lines().nth(number - 1);
    let given = given.map_or("nothing".to_string(), |given| format!("{given:?}"));
    assert_eq!(line, given);
}

#[test]
fn the_line_is_passed_over_and_told() {
    let row = with_line(EXAMPLE);
    assert_eq!(row.lines().nth(3), Some("A 0 0 0"));
    assert_eq!(check("", &row), passed(LINE));
    assert_eq!(check("", EXAMPLE), (0, "the same".to_string()));
    // All counts of d = 1.
    for option in ["", "--terminated"] {
        let row = run(&format!("{option} 2 1 4 1 1 1 3")).out;
        assert_eq!(check(option, &oldest(&row)), passed(&both(1)));
    }
}

#[test]
fn the_missing_number_is_told() {
    let row = without_number(EXAMPLE);
    assert_eq!(row.lines().last(), Some("CRC 0x5"));
    assert_eq!(check("", &row), passed(&number(1)));
    assert_eq!(check("", &oldest(EXAMPLE)), passed(&both(1)));
    // Printed with --of 0x5 before, and the best by a search now.
    assert_eq!(check("", &without_number(SHARED)), passed(&number(2)));
    assert_eq!(check("", &oldest(SHARED)), passed(&both(2)));
}

#[test]
fn a_line_that_lacks_more_differs() {
    let now = "\"CRC 0x5 1\"";
    for line in [
        "CRC 0x7",
        "CRC 0x05",
        "CRC",
        "CRC ",
        "CRC 0x5 ",
        "CRC  0x5",
        "0x5",
        "CRC 0x5  1",
        "CRC 0x5 01",
        "CRC 0x5 1 1",
        "CRC 0x5 0",
        "CRC 0x5 2",
    ] {
        let row = EXAMPLE.replace("CRC 0x5 1", line);
        differs(&row, 9, &format!("{line:?}"), now);
        let row = with_line(EXAMPLE).replace("CRC 0x5 1", line);
        differs(&row, 10, &format!("{line:?}"), now);
    }
    // No other line may lack its last number.
    let row = EXAMPLE.replace("A 4 5 1", "A 4 5");
    differs(&row, 7, "\"A 4 5\"", "\"A 4 5 1\"");
}

#[test]
fn a_refusal_of_the_older_form_differs_and_is_told_as_that() {
    let check_of =
        |options: &str, order: &str, no: &str| check(options, &format!("ORDER {order}\n{no}\n"));
    let hint = "it is a refusal of the older form, and the last line is now \"CRC 0x5 2\"";
    let how = "DIFFERS, line 2 of the row is \"NO 15 2\", now \"EVENTS 4\"";
    let expected = (3, format!("{how}; {hint}"));
    assert_eq!(check_of("", "2 1 4 2 5 1 3", "NO 15 2"), expected);
    let (status, said) = check_of("--terminated", "2 1 3 2 5 1 3", "NO 15 2");
    assert!(status == 3 && said.ends_with(hint), "{said}");
    // Of another number, of another form, or not alone.
    for no in [
        "NO 14",
        "NO 15",
        "NO 15 ",
        "NO 15 two",
        "NO 15 2 2",
        "NO 16 2",
        "NO 15 2\nNO 15 2",
    ] {
        let (status, said) = check_of("", "2 1 4 2 5 1 3", no);
        let line = no.lines().next().unwrap();
        let how = format!("DIFFERS, line 2 of the row is {line:?}, now \"EVENTS 4\"");
        assert_eq!((status, said), (3, how));
    }
    // Where there is no row now either.
    let (status, said) = check_of("--events 4 --paths 8", "2 1 4 2 5 1 3", "NO 15 2");
    assert_eq!(status, 3);
    assert!(said.ends_with("is \"NO 15 2\", now \"NO 14\""), "{said}");
}

#[test]
fn of_one_polynomial_and_of_either_kind_of_link() {
    let row = run("--of 0x7 2 1 4 2 6 1 3").out;
    assert_eq!(check("--of 0x7", &without_number(&row)), passed(&number(0)));
    assert_eq!(check("--of 0x7", &oldest(&row)), passed(&both(0)));
    let row = oldest(&run("--terminated 2 1 3 2 6 1 3").out);
    assert_eq!(check("--terminated", &row), passed(&both(1)));
    assert_eq!(check("", &format!("terminated {row}")), passed(&both(1)));
    let (status, said) = check("", &row);
    assert_eq!(status, 3);
    let hint = "; it is the row of a terminated link (see --terminated)";
    assert!(said.starts_with("DIFFERS, line 3 ") && said.ends_with(hint));
}

#[test]
fn a_list_of_all_forms() {
    let refused = "ORDER 2 1 4 2 0 1 3\nNO 7\n";
    let wrong = oldest(EXAMPLE).replace("A 5 4 0", "A 5 4 1");
    let rows = [
        &oldest(EXAMPLE),
        EXAMPLE,
        refused,
        &wrong,
        &without_number(EXAMPLE),
        SHARED,
        &with_line(EXAMPLE),
    ];
    let rows = rows.concat();
    let older = |how: &str| passed(how).1;
    let expected = format!(
        "\
row 1, ORDER 2 1 4 2 6 1 3: {}
row 2, ORDER 2 1 4 2 6 1 3: the same
row 3, ORDER 2 1 4 2 0 1 3: the same
row 4, ORDER 2 1 4 2 6 1 3: DIFFERS, line 9 of the row is \"A 5 4 1\", now \"A 5 4 0\"
row 5, ORDER 2 1 4 2 6 1 3: {}
row 6, ORDER 2 1 4 2 5 1 3: the same
row 7, ORDER 2 1 4 2 6 1 3: {}
rows checked: 7, different: 1
",
        older(&both(1)),
        older(&number(1)),
        older(LINE)
    );
    for jobs in [1, 2, 5] {
        let run = run_on(&format!("--jobs {jobs} --check -"), rows.as_bytes());
        assert_eq!((run.status, run.out.as_str()), (3, expected.as_str()));
    }
}

#[test]
fn other_counts_of_weight_0_differ() {
    for line in [
        "A 0 1 0", "A 0 0 1", "A 0 1 1", "A 0 0", "A 0 0 0 ", "A 00 0 0",
    ] {
        let row = with_line(EXAMPLE).replace("A 0 0 0", line);
        differs(&row, 4, &format!("{line:?}"), "\"A 1 0 0\"");
    }
}

#[test]
fn the_line_at_another_place_differs() {
    let with = |before: &str| EXAMPLE.replace(before, &format!("A 0 0 0\n{before}"));
    let line = "\"A 0 0 0\"";
    differs(&with("EVENTS 5"), 2, line, "\"EVENTS 5\"");
    differs(&with("PATHS 13"), 3, line, "\"PATHS 13\"");
    differs(&with("A 2 0 0"), 5, line, "\"A 2 0 0\"");
    differs(&with("CRC 0x5"), 9, line, "\"CRC 0x5 1\"");
    differs(&format!("{EXAMPLE}A 0 0 0\n"), 10, line, "nothing");
    // Once more than the older form has it.
    let twice = with_line(EXAMPLE).replace("A 0 0 0\n", "A 0 0 0\nA 0 0 0\n");
    differs(&twice, 5, line, "\"A 1 0 0\"");
}

#[test]
fn a_line_is_told_by_its_number_in_the_row() {
    let row = oldest(EXAMPLE);
    let with = |from: &str, to: &str| {
        assert!(row.contains(from));
        row.replace(from, to)
    };
    differs(
        &with("EVENTS 5", "EVENTS 4"),
        2,
        "\"EVENTS 4\"",
        "\"EVENTS 5\"",
    );
    differs(
        &with("PATHS 13", "PATHS 12"),
        3,
        "\"PATHS 12\"",
        "\"PATHS 13\"",
    );
    differs(&with("A 1 0 0", "A 1 1 0"), 5, "\"A 1 1 0\"", "\"A 1 0 0\"");
    differs(&with("A 4 5 1", "A 4 5 0"), 8, "\"A 4 5 0\"", "\"A 4 5 1\"");
    differs(&with("A 3 4 0\n", ""), 7, "\"A 4 5 1\"", "\"A 3 4 0\"");
    differs(&with("0x5", "0x7"), 10, "\"CRC 0x7\"", "\"CRC 0x5 1\"");
    differs(&with("CRC 0x5\n", ""), 10, "nothing", "\"CRC 0x5 1\"");
    differs(
        &with("CRC", "A 6 0 0\nCRC"),
        10,
        "\"A 6 0 0\"",
        "\"CRC 0x5 1\"",
    );
    differs(&format!("{row}CRC 0x5\n"), 11, "\"CRC 0x5\"", "nothing");
    let cut: String = row.split_inclusive('\n').take(4).collect();
    differs(&cut, 5, "nothing", "\"A 1 0 0\"");
}

#[test]
fn rows_are_printed_without_the_line_and_with_the_number() {
    let list = run_on("--file -", b"2 1 4 2 6 1 3\n2 1 4 1 1 1 3\n").out;
    assert!(!list.contains("A 0 "), "{list}");
    assert!(list.contains("CRC 0x5 1\n") && list.contains("CRC 0x3 1\n"));
}
