//! The checklist of small codes.

use crate::rows::{EXAMPLE, SHARED};
use crate::run::run;

/// Point 1 of code S, where 0x5 is best.
const CODE_S: &str = "
1. The polynomials written out
   generator 1 is 1
   generator 3 is x+1, irreducible
   no factor is shared by all generators
   check 0x5 is x^2+1
";

/// A row of code S is followed by point 1 and these.
pub fn signed(arguments: &str, row: &str, points: &str) {
    let run = run(&format!("--checklist {arguments}"));
    let expected = format!("{row}{CODE_S}{points}");
    assert_eq!((run.status, run.out), (0, expected));
}

#[test]
fn a_row_and_its_points() {
    let points = "
2. Every rotation of a path is in the list
   weight 3: 4 paths, the rotations of 1: 0x1 (4 of 4)
   weight 4: 5 paths, the rotations of 2: 0x3 (4 of 4), 0xF (1 of 1)
   weight 5: 4 paths, the rotations of 1: 0x7 (4 of 4)
   all weights: 13 of 13 paths, turned by one place, are in the list

3. Paths that never pass state 0
   weight 3: 0 of 4
   weight 4: 1 of 5, such as 0xF
   weight 5: 0 of 4
   by the trellis, the lightest such word weighs 4

4. Rivals, of 2 polynomials
   best by the listed paths: 0x5, undetected 1 at 4
   0x7 loses at weight 5, 2 to 0: undetected 1 at 4, 2 at 5
";
    signed("2 1 4 2 6 1 3", EXAMPLE, points);
}

#[test]
fn those_that_share_the_best_counts_are_named() {
    let run = run("--checklist 2 1 4 2 5 1 3");
    assert_eq!(run.status, 0);
    assert!(run.out.starts_with(&format!("{SHARED}{CODE_S}")));
    let rivals = "
4. Rivals, of 2 polynomials
   best by the listed paths: 0x5, undetected 1 at 4
   and 1 more with the same counts: 0x7
";
    assert!(run.out.ends_with(rivals), "{}", run.out);
}

#[test]
fn generators_have_their_factors() {
    let run = run("--checklist 2 3 12 3 10 13 17");
    let point = "
1. The polynomials written out
   generator 13 is x^3+x+1, irreducible
   generator 17 is x^3+x^2+x+1 = (x+1)(x+1)(x+1)
   no factor is shared by all generators
   check 0x";
    assert_eq!(run.status, 0);
    assert!(run.out.contains(point), "{}", run.out);
}

#[test]
fn generators_that_share_a_factor_have_no_checklist() {
    let run = run("--checklist 2 2 12 3 10 5 3");
    assert_eq!((run.status, run.out.as_str()), (0, "NO 16\n"));
    let told = "dso-row: refused by question 16: the generators share a factor\n";
    assert_eq!(run.err, told);
}

#[test]
fn no_path_at_all() {
    let run = run("--checklist 2 3 20 3 2 13 17");
    assert_eq!(run.status, 0);
    assert!(run.out.contains("all weights: 0 of 0 paths"));
    let rivals = "
   best by the listed paths: 0x9, nothing undetected
   and 3 more with the same counts: 0xB 0xD 0xF
";
    assert!(run.out.ends_with(rivals), "{}", run.out);
}

#[test]
fn rivals_count_as_the_library_counts_for_them() {
    let order = "2 3 24 6 14 13 17";
    let list = run(&format!("--checklist {order}")).out;
    let rivals: Vec<&str> = list
        .lines()
        .filter(|line| line.contains(" loses at "))
        .collect();
    assert_eq!(rivals.len(), 5);
    for rival in rivals {
        let (name, counts) = rival.trim().split_once(" loses at ").unwrap();
        let row = run(&format!("--of {name} {order}")).out;
        let said: Vec<&str> = counts
            .split_once("undetected ")
            .unwrap()
            .1
            .split(", ")
            .collect();
        let counted: Vec<String> = row.lines().filter_map(undetected).collect();
        assert_eq!(said, counted, "{rival}");
    }
}

/// What an A line says of undetected words, if there are any.
fn undetected(line: &str) -> Option<String> {
    match line.split(' ').collect::<Vec<&str>>()[..] {
        ["A", _, _, "0"] => None,
        ["A", weight, _, count] => Some(format!("{count} at {weight}")),
        _ => None,
    }
}
