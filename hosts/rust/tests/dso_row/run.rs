//! Runs the program.

use std::fs;
use std::io::Write;
use std::path::PathBuf;
use std::process::{Command, Output, Stdio};

/// What a run gives: exit status, standard output, standard error.
#[derive(Debug)]
pub struct Run {
    pub status: i32,
    pub out: String,
    pub err: String,
}

impl Run {
    fn of(output: Output) -> Run {
        let text = |bytes| String::from_utf8(bytes).expect("text");
        Run {
            status: output.status.code().expect("no signal ended it"),
            out: text(output.stdout),
            err: text(output.stderr),
        }
    }
}

pub fn program() -> Command {
    Command::new(env!("CARGO_BIN_EXE_dso-row"))
}

/// A run with arguments that stand between spaces.
pub fn run(arguments: &str) -> Run {
    run_on(arguments, b"")
}

/// The same with bytes on standard input.
pub fn run_on(arguments: &str, input: &[u8]) -> Run {
    Run::of(bytes_on(arguments, input))
}

/// The same, where what is printed is no text.
pub fn bytes_on(arguments: &str, input: &[u8]) -> Output {
    let mut child = program()
        .args(arguments.split_whitespace())
        .stdin(Stdio::piped())
        .stdout(Stdio::piped())
        .stderr(Stdio::piped())
        .spawn()
        .expect("the program starts");
    // A program that reads no input may have ended before.
    let _ = child.stdin.take().expect("piped").write_all(input);
    child.wait_with_output().expect("the program ends")
}

/// A file of this text, of which no other test has the name.
pub fn file(name: &str, text: &str) -> String {
    let path = PathBuf::from(env!("CARGO_TARGET_TMPDIR")).join(name);
    fs::write(&path, text).expect("a writable folder");
    path.to_str().expect("a path of text").to_string()
}
