//! `run-rows`: runs a program on stored orders and compares what it prints.

use run_rows::cases::{self, Case};
use std::io::{self, Write};
use std::process::{Command, ExitCode, Stdio};

const HELP: &str = "\
usage: run-rows [--options-style ref|sized|plain] PROGRAM FILE...
       run-rows --plain PROGRAM FILE...

Runs PROGRAM on every case of the files, the record on standard input, and
compares standard output byte for byte. A line for each failure; the last line
is `N passed, M failed`.

  ref      (the rule) PROGRAM is called as dso-ref: -, --events, --paths, --of,
           --quote, --lengths
  sized    the same, but --events and --paths are always given
  plain    PROGRAM takes no arguments: only the cases with default tables and
           without an `of`, `quote` or `lengths` line are run and counted

Exit status: 0 all passed; 1 some failed, or none ran; 2 bad arguments, or a
file cannot be read, has no case or is not understood.
";

/// The tables of a case that names none.
const DEFAULT: (&str, &str) = ("512", "2048");

#[derive(Clone, Copy, PartialEq)]
enum Style {
    Ref,
    Sized,
    Plain,
}

fn main() -> ExitCode {
    let arguments: Vec<String> = std::env::args().skip(1).collect();
    if arguments.iter().any(|argument| argument == "--help") {
        say(HELP.trim_end());
        return ExitCode::SUCCESS;
    }
    match read_arguments(&arguments)
        .and_then(|(style, program, files)| run_all(style, program, files))
    {
        Ok(true) => ExitCode::SUCCESS,
        Ok(false) => ExitCode::FAILURE,
        Err(message) => {
            let _ = writeln!(io::stderr(), "run-rows: {message}");
            ExitCode::from(2)
        }
    }
}

fn read_arguments(arguments: &[String]) -> Result<(Style, &str, &[String]), String> {
    let mut style = Style::Ref;
    let mut rest = arguments;
    while let Some(option) = rest.first().filter(|argument| argument.starts_with('-')) {
        let value = rest.get(1).map(String::as_str);
        let (chosen, used) = match (option.as_str(), value) {
            ("--plain", _) => (Style::Plain, 1),
            ("--options-style", Some("ref")) => (Style::Ref, 2),
            ("--options-style", Some("sized")) => (Style::Sized, 2),
            ("--options-style", Some("plain")) => (Style::Plain, 2),
            ("--options-style", _) => {
                return Err(format!("{option}: ref, sized or plain (see --help)"))
            }
            _ => return Err(format!("{option}: no such option (see --help)")),
        };
        style = chosen;
        rest = &rest[used..];
    }
    match rest {
        [program, files @ ..] if !files.is_empty() => Ok((style, program, files)),
        _ => Err("a program and one file or more are needed (see --help)".to_string()),
    }
}

/// Runs the cases of all files; true where there are some and all pass.
fn run_all(style: Style, program: &str, files: &[String]) -> Result<bool, String> {
    let (mut passed, mut failed) = (0, 0);
    for file in files {
        let text = std::fs::read_to_string(file).map_err(|error| format!("{file}: {error}"))?;
        let cases = cases::read(&text).map_err(|wrong| format!("{file}: {wrong}"))?;
        for case in cases
            .iter()
            .filter(|case| style != Style::Plain || case.plain())
        {
            match run(style, program, case) {
                Ok(()) => passed += 1,
                Err(wrong) => {
                    failed += 1;
                    say(&format!(
                        "FAILED {file}:{} {}: {wrong}",
                        case.line, case.name
                    ));
                }
            }
        }
    }
    say(&format!("{passed} passed, {failed} failed"));
    Ok(passed > 0 && failed == 0)
}

/// Runs one case. The error says, on one line, what is wrong.
fn run(style: Style, program: &str, case: &Case) -> Result<(), String> {
    let mut child = command(style, program, case)
        .spawn()
        .map_err(|error| format!("{program}: {error}"))?;
    if let Some(mut input) = child.stdin.take() {
        let record = case.record.clone();
        // Written from the side: the program may print before it has read all,
        // or answer without reading all.
        std::thread::spawn(move || input.write_all(&record));
    }
    let output = child
        .wait_with_output()
        .map_err(|error| error.to_string())?;
    if !output.status.success() {
        let message = String::from_utf8_lossy(&output.stderr);
        let message = message.trim_end();
        return Err(format!("{}, on standard error {message:?}", output.status));
    }
    if output.stdout != case.expected.as_bytes() {
        let got = String::from_utf8_lossy(&output.stdout);
        return Err(difference(&case.expected, &got));
    }
    Ok(())
}

fn command(style: Style, program: &str, case: &Case) -> Command {
    let mut command = Command::new(program);
    if style != Style::Plain {
        command.arg("-");
        let sizes = match &case.tables {
            Some((events, paths)) => Some((events.as_str(), paths.as_str())),
            None => (style == Style::Sized).then_some(DEFAULT),
        };
        if let Some((events, paths)) = sizes {
            command.args(["--events", events, "--paths", paths]);
        }
        if let Some(polynomial) = &case.of {
            command.args(["--of", polynomial]);
        }
        if let Some(length) = &case.quote {
            command.args(["--quote", length]);
        }
        if let Some(lengths) = &case.lengths {
            command.args(["--lengths", lengths]);
        }
    }
    command
        .stdin(Stdio::piped())
        .stdout(Stdio::piped())
        .stderr(Stdio::piped());
    command
}

/// The first line that differs.
fn difference(expected: &str, got: &str) -> String {
    let lines = expected
        .split_inclusive('\n')
        .zip(got.split_inclusive('\n'));
    let same = lines.take_while(|(one, other)| one == other).count();
    let line = |text: &str| match text.split_inclusive('\n').nth(same) {
        Some(line) => format!("{line:?}"),
        None => "the end".to_string(),
    };
    format!("line {}: - {} + {}", same + 1, line(expected), line(got))
}

/// A line on standard output; whoever closed it has read enough.
fn say(line: &str) {
    let _ = writeln!(io::stdout(), "{line}");
}

#[cfg(test)]
mod tests {
    use super::*;

    #[test]
    fn the_first_line_that_differs_is_named() {
        assert_eq!(difference("A\nB\n", "A\nC\n"), r#"line 2: - "B\n" + "C\n""#);
        assert_eq!(difference("A\nB\n", "A\n"), r#"line 2: - "B\n" + the end"#);
        assert_eq!(difference("A\n", "A"), r#"line 1: - "A\n" + "A""#);
        assert_eq!(difference("A\n", "A\nB\n"), r#"line 2: - the end + "B\n""#);
    }
}
