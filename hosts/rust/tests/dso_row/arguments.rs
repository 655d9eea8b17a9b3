//! Help, and arguments that are wrong.

use crate::run::run;

#[test]
fn help() {
    let help = run("--help");
    assert_eq!((help.status, help.err.as_str()), (0, ""));
    for option in [
        "--of",
        "--quote",
        "--lengths",
        "--json",
        "--terminated",
        "--checklist",
        "--record",
        "--file",
        "--check",
        "--jobs",
        "--memory",
        "--events",
        "--paths",
    ] {
        assert!(help.out.contains(option), "{option}");
    }
}

#[test]
fn the_message_names_the_argument() {
    for (arguments, message) in [
        ("", "an order is missing (see --help)"),
        ("2 1 4", "m is missing"),
        ("2 1 4 2 6", "n is 2, but the generators are 0"),
        ("2 1 4 2 6 1", "n is 2, but the generators are 1"),
        ("2 1 4 2 6 1 3 3", "n is 2, but the generators are 3"),
        ("2 1 4 2 6 1 8", "8: not an octal generator"),
        ("two 1 4 2 6 1 3", "two: n is not a decimal number"),
        ("2 +1 4 2 6 1 3", "+1: v is not a decimal number"),
        (
            "2 1 99999999999999999999 2 6 1 3",
            "99999999999999999999: N is not a decimal number",
        ),
        ("- 2", "-: n is not a decimal number"),
        (
            "--fast 2 1 4 2 6 1 3",
            "--fast: no such option (see --help)",
        ),
        ("2 -1 4 2 6 1 3", "-1: no such option (see --help)"),
        ("--of", "--of: its value is missing (see --help)"),
        (
            "--of 61 2 1 4 2 6 1 3",
            "--of 61: not a polynomial in hexadecimal such as 0x61",
        ),
        (
            "--of 0x 2 1 4 2 6 1 3",
            "--of 0x: not a polynomial in hexadecimal such as 0x61",
        ),
        (
            "--memory 0 2 1 4 2 6 1 3",
            "--memory 0: not a number of MiB",
        ),
        ("--memory much", "--memory much: not a number of MiB"),
        (
            "--memory 99999999999999999",
            "--memory 99999999999999999: not a number of MiB",
        ),
        ("--jobs 0 --file -", "--jobs 0: not a number of jobs"),
        ("--jobs two --file -", "--jobs two: not a number of jobs"),
        ("--jobs -1 --file -", "--jobs -1: not a number of jobs"),
        (
            "--file - --jobs",
            "--jobs: its value is missing (see --help)",
        ),
        (
            "--jobs 2 2 1 4 2 6 1 3",
            "--jobs: not without --file or --check",
        ),
        (
            "--jobs 2 --checklist -",
            "--jobs: not without --file or --check",
        ),
        (
            "--events few --paths 1 -",
            "--events few: not a number of entries",
        ),
        ("--paths -1 -", "--paths -1: not a number of entries"),
        ("--events 5 -", "--events: not without --paths"),
        ("--paths 5 -", "--paths: not without --events"),
        (
            "--events 5 --paths 99999999999999999 -",
            "--events 5 --paths 99999999999999999: not within --memory 1024",
        ),
        (
            "--memory 1 --events 5 --paths 65536 -",
            "--events 5 --paths 65536: not within --memory 1",
        ),
        ("--file a --check b", "--check: not together with --file"),
        (
            "--record --checklist -",
            "--checklist: not together with --record",
        ),
        ("--json --record -", "--json: not together with --record"),
        (
            "--of 0x7 --checklist -",
            "--of: not together with --checklist",
        ),
        ("--quote", "--quote: its value is missing (see --help)"),
        (
            "--quote 70,x -",
            "--quote 70,x: not lengths such as 70 or 70,64",
        ),
        (
            "--quote 70, -",
            "--quote 70,: not lengths such as 70 or 70,64",
        ),
        (
            "--quote -1 -",
            "--quote -1: not lengths such as 70 or 70,64",
        ),
        (
            "--quote 18446744073709551616 -",
            "--quote 18446744073709551616: not lengths such as 70 or 70,64",
        ),
        ("--quote 70 --check -", "--quote: not together with --check"),
        (
            "--quote 70 --record -",
            "--quote: not together with --record",
        ),
        (
            "--record-hex --quote 70 -",
            "--quote: not together with --record-hex",
        ),
        ("--of 0x7 --quote 70 -", "--quote: not together with --of"),
        ("--file orders 2 1 4 2 6 1 3", "2: an order beside the file"),
        (
            "--terminated -",
            "--terminated: a record says it by its version",
        ),
        ("open 2 1 4 2 6 1 3", "open: n is not a decimal number"),
    ] {
        let run = run(arguments);
        assert_eq!((run.status, run.out.as_str()), (2, ""), "{arguments}");
        assert_eq!(run.err, format!("dso-row: {message}\n"), "{arguments}");
    }
}

#[test]
fn a_file_that_is_not_there() {
    for option in ["--file", "--check"] {
        let run = run(&format!("{option} /no/such/file"));
        assert_eq!((run.status, run.out.as_str()), (1, ""));
        assert!(
            run.err.starts_with("dso-row: /no/such/file: "),
            "{}",
            run.err
        );
    }
}
