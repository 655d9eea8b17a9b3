//! One polynomial for a set of lengths.

use crate::rows::{EXAMPLE, RECORD};
use crate::run::{run, run_on};
use dso_ref::link::{Code, Kind};
use dso_ref::set::{self, Set};
use dso_ref::{Lent, Method};

/// Code S, 4 and 3, d = 5: at 4 alone two share these counts.
const ROW: &str = "\
ORDER 2 1 4 2 5 1 3
EVENTS 4
PATHS 9
A 1 0 0
A 2 0 0
A 3 4 0
A 4 5 1
CRC 0x5 1
";

#[test]
fn the_row_of_code_s() {
    for (arguments, row) in [
        ("--lengths 4,3 2 1 4 2 5 1 3", ROW),
        // Whatever N is.
        ("2 1 0 2 5 1 3 --lengths 4,3", ROW),
        ("2 1 18446744073709551615 2 5 1 3 --lengths 4,3", ROW),
        ("--lengths 4,3 2 1 4 2 6 1 3", EXAMPLE),
    ] {
        let run = run(arguments);
        let all = (run.status, run.out.as_str(), run.err.as_str());
        assert_eq!(all, (0, row, ""), "{arguments}");
    }
    assert_eq!(run_on("--lengths 4,3 -", &RECORD).out, EXAMPLE);
    let both = run("--lengths 4,3 --lengths 4 2 1 4 2 5 1 3").out;
    assert_eq!(both, ROW.to_string() + &run("2 1 4 2 5 1 3").out);
}

/// A set in numbers, and its lengths.
const SETS: [(&str, &str); 8] = [
    ("2 1 4 2 5 1 3", "5,3"),
    ("2 2 4 2 4 1 5", "5,4,3"),
    ("2 1 4 3 7 1 2", "5,4"),
    ("2 3 70 6 12 13 17", "70,64,52,40"),
    ("2 3 70 6 14 13 17", "70,64,52,40"),
    ("2 6 64 8 14 133 171", "64,48,32"),
    ("3 4 9 5 16 25 33 37", "18,17,16,15,14,13,12,11"),
    ("2 1 9 12 1 1 3", "14,13"),
];

/// What the second tool prints of a set, and its JSON of the lengths.
fn second(kind: Kind, order: &str, lengths: &str) -> (String, String) {
    let number = |word: &str, radix| u64::from_str_radix(word, radix).unwrap();
    let words: Vec<&str> = order.split(' ').collect();
    let [v, m, d] = [1, 3, 4].map(|at| number(words[at], 10) as usize);
    let generators: Vec<u64> = words[5..].iter().map(|word| number(word, 8)).collect();
    let lengths: Vec<usize> = lengths
        .split(',')
        .map(|word| number(word, 10) as usize)
        .collect();
    let set = Set::new(Code::of(kind, v, 0, &generators), m, d, &lengths).unwrap();
    let lent = Lent {
        events: 1 << 20,
        paths: 1 << 20,
    };
    let (row, left) = set::row(&set, lent, Method::Both).unwrap();
    let of_length = |left: &set::Left| {
        let set::Left {
            length,
            first,
            many,
        } = left;
        format!("{{\"N\":{length},\"first\":{first},\"left\":{many}}}")
    };
    let left: Vec<String> = left.iter().map(of_length).collect();
    let json = format!("}},\"lengths\":[{}],\"events\":", left.join(","));
    (format!("{row}\n"), json)
}

#[test]
fn the_second_tool_prints_the_same() {
    for (order, lengths) in SETS {
        for (kind, option) in Kind::ALL.into_iter().zip(["", "--terminated"]) {
            let (row, left) = second(kind, order, lengths);
            let with = |options| run(&format!("{option} {options} --lengths {lengths} {order}"));
            assert_eq!(with("").out, row, "{order} {lengths}");
            let json = with("--json").out;
            assert!(json.contains(&left), "{order} {lengths}: {json} {left}");
            let list = run_on(
                &format!("{option} --json --lengths {lengths} --file -"),
                order.as_bytes(),
            );
            assert_eq!(list.out, json, "{order} {lengths}");
            let signed = with("--checklist");
            assert!(signed.out.starts_with(&row), "{order} {lengths}");
            assert_eq!(signed.status, 0, "{order} {lengths}: {}", signed.out);
        }
    }
}

#[test]
fn the_checklist_says_what_each_length_left() {
    let signed = run("--checklist --lengths 5,3 2 1 0 2 5 1 3").out;
    let end = "\
4. Rivals, of 1 polynomials
   best by the listed paths: 0x7, nothing undetected

5. What each length left, of 2 polynomials
   length 5: nothing undetected below 5, 1 left
   length 3: first undetected weight 3, 1 left
";
    assert!(signed.ends_with(end), "{signed}");
    assert!(!run("--checklist 2 1 5 2 5 1 3").out.contains("\n5. "));
}

#[test]
fn refusals() {
    for (lengths, number) in [
        ("10,9,8,7,6,5,4,3,2", 17),
        ("4,4", 17),
        ("3,4", 17),
        ("200,300", 17),
        ("129,4", 5),
        ("18446744073709551615,4", 5),
        ("4,0", 5),
        ("4,3,2", 6),
    ] {
        let run = run(&format!("--lengths {lengths} 2 1 4 2 6 1 3"));
        let all = (run.status, run.out);
        assert_eq!(all, (0, format!("NO {number}\n")), "{lengths}");
        assert!(run.err.contains("refused by question"), "{lengths}");
    }
    let json = run("--json --lengths 3,4 2 1 4 2 6 1 3").out;
    assert_eq!(json, "{\"lengths\":[{\"N\":3},{\"N\":4}],\"refusal\":17}\n");
    let first = run("--lengths 3,4 --lengths 4,3 2 1 4 2 5 1 3").out;
    assert_eq!(first, format!("ORDER 2 1 3 2 5 1 3\nNO 17\n{ROW}"));
}

#[test]
fn tables_take_the_events_of_the_longest_and_the_paths_of_every_length() {
    let lent = |sizes: &str, set: &str| run(&format!("{sizes} --lengths {set} 1 3")).out;
    assert_eq!(lent("--events 4 --paths 9", "4,3 2 1 4 2 5"), ROW);
    assert_eq!(lent("--events 3 --paths 8", "4,3 2 1 4 2 5"), "NO 13\n");
    assert_eq!(lent("--events 4 --paths 8", "4,3 2 1 4 2 5"), "NO 14\n");
    // No path of 3 bits, and one of 2.
    let short = "3,2 2 1 4 1 3";
    assert_eq!(lent("--events 2 --paths 0", short), "NO 14\n");
    assert_eq!(lent("--events 2 --paths 1", short), lent("", short));
    let needed = run("--memory 16 --lengths 70,64 2 3 0 6 18 13 17");
    assert_eq!(needed.out, "NO 14\n");
    let told = "the tables need 15852 events and 1940785 paths, 31 MiB: more than --memory 16";
    assert!(needed.err.contains(told), "{}", needed.err);
}

#[test]
fn a_list_of_sets_is_checked_against_itself() {
    let orders = "\
2 1 4 2 5 1 3
lengths 4,3 2 1 0 2 5 1 3
lengths 5,4 terminated ORDER 2 1 77 3 7 1 2
quote 3 tail-biting 2 1 4 2 6 1 3
lengths 3,4 2 1 9 2 5 1 3
";
    let rows = run_on("--file -", orders.as_bytes()).out;
    let heads: Vec<&str> = rows.lines().filter(|line| line.contains("ORDER")).collect();
    let expected = [
        "ORDER 2 1 4 2 5 1 3",
        "lengths 4,3 ORDER 2 1 4 2 5 1 3",
        "lengths 5,4 terminated ORDER 2 1 5 3 7 1 2",
        "ORDER 2 1 3 2 6 1 3",
        "lengths 3,4 ORDER 2 1 9 2 5 1 3",
    ];
    assert_eq!(heads, expected);
    assert!(rows.contains(&format!("lengths 4,3 {ROW}")), "{rows}");
    let check = run_on("--check -", rows.as_bytes());
    assert_eq!(check.status, 0, "{}", check.out);
    assert!(check.out.ends_with("rows checked: 5, different: 0\n"));
    // The row of the longest alone says another number.
    let alone = run_on("--check -", ROW.as_bytes());
    assert_eq!(alone.status, 3, "{}", alone.out);
    let other = rows.replace("lengths 4,3", "lengths 4,2");
    let check = run_on("--check -", other.as_bytes()).out;
    assert!(check.contains("now \"NO 6\""), "{check}");
    let all = run_on("--lengths 4,3 --file -", b"2 1 9 2 5 1 3\n").out;
    assert_eq!(all, format!("lengths 4,3 {ROW}"));
}

#[test]
fn what_may_not_stand_together() {
    for (arguments, said) in [
        ("--lengths", "--lengths: its value is missing"),
        ("--lengths 4, -", "--lengths 4,: not lengths such as"),
        (
            "--lengths 4,3 --of 0x5 -",
            "--lengths: not together with --of or --quote",
        ),
        (
            "--lengths 4,3 --quote 3 -",
            "--lengths: not together with --of or --quote",
        ),
        (
            "--lengths 4,3 --record -",
            "--lengths: not together with --record",
        ),
        (
            "--lengths 4,3 --check -",
            "--lengths: not together with --check",
        ),
    ] {
        let run = run(arguments);
        assert_eq!(run.status, 2, "{arguments}");
        assert!(run.err.contains(said), "{arguments}: {}", run.err);
    }
}
