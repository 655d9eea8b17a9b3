//! `same-calls`: whether C and Rust declare the exported calls as the crates do.

mod calls;
mod crates;
mod header;
mod host;
mod rusty;
mod tokens;

use std::io::{self, Write};
use std::path::Path;
use std::process::ExitCode;

const HELP: &str = "\
usage: same-calls CRATES HEADER TABLE

Compares every function that a crate in the folder CRATES exports with its
prototype in HEADER, in C, and with its line in TABLE, the file of the Rust host:
the parameters in order, by name and type, and the answer. A slice is a pointer
and a count. Of a struct the fields are compared, in order and by name, those of
structs in it among them; its own name may be another. A line for each that
differs; the last line is `N passed, M failed`.

Exit status: 0 all are the same; 1 some differ, or there are none; 2 bad
arguments, or a file cannot be read or is not understood.
";

fn main() -> ExitCode {
    let arguments: Vec<String> = std::env::args().skip(1).collect();
    if arguments.iter().any(|argument| argument == "--help") {
        say(HELP.trim_end());
        return ExitCode::SUCCESS;
    }
    match run(&arguments) {
        Ok(true) => ExitCode::SUCCESS,
        Ok(false) => ExitCode::FAILURE,
        Err(message) => {
            let _ = writeln!(io::stderr(), "same-calls: {message}");
            ExitCode::from(2)
        }
    }
}

/// True where there are calls and all are the same.
fn run(arguments: &[String]) -> Result<bool, String> {
    let [folder, header, table] = arguments else {
        return Err("a folder of crates and two files are needed (see --help)".to_string());
    };
    let exported = crates::read(Path::new(folder))?;
    let (mut passed, mut failed) = (0, 0);
    for (file, read) in [
        (
            header,
            header::read as fn(&str) -> Result<calls::Calls, String>,
        ),
        (table, host::read),
    ] {
        let text = std::fs::read_to_string(file).map_err(|error| format!("{file}: {error}"))?;
        let declared = read(&text).map_err(|why| format!("{file}: {why}"))?;
        let (all, lines) = calls::differences(&exported, &declared, file);
        lines.iter().for_each(|line| say(&format!("FAILED {line}")));
        passed += all - lines.len();
        failed += lines.len();
    }
    say(&format!("{passed} passed, {failed} failed"));
    Ok(passed > 0 && failed == 0)
}

/// A line on standard output; whoever closed it has read enough.
fn say(line: &str) {
    let _ = writeln!(io::stdout(), "{line}");
}
