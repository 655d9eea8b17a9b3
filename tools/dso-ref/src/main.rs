//! `dso-ref`: prints the row of an order, or its events, paths or record.

mod args;

use args::{Args, Source, Wanted};
use dso_ref::set::{self, Set};
use dso_ref::{events, quote, row, words, Failure, Order, Refusal};
use std::fmt::Display;
use std::io::{self, BufWriter, ErrorKind, Read, Write};
use std::process::ExitCode;

/// Why there is no row, list or record.
enum Stop {
    Refused(Refusal),
    Io(io::Error),
    /// The exit status and the message.
    Failed(u8, String),
}

impl From<io::Error> for Stop {
    fn from(error: io::Error) -> Stop {
        Stop::Io(error)
    }
}

impl From<Refusal> for Stop {
    fn from(refusal: Refusal) -> Stop {
        Stop::Refused(refusal)
    }
}

impl From<Failure> for Stop {
    fn from(failure: Failure) -> Stop {
        match failure {
            Failure::Refused(refusal) => Stop::Refused(refusal),
            Failure::TooLong => {
                Stop::Failed(2, format!("--method words: N is above {}", words::LONGEST))
            }
            Failure::Disagree(how) => Stop::Failed(
                3,
                format!("INTERNAL ERROR, the two methods disagree: {how}"),
            ),
        }
    }
}

fn main() -> ExitCode {
    let arguments = std::env::args_os()
        .skip(1)
        .map(|a| a.to_string_lossy().into_owned());
    let args = args::read(arguments).map_err(|message| Stop::Failed(2, message));
    match args.and_then(|args| answer(&args)) {
        Ok(()) => ExitCode::SUCCESS,
        // A refusal is an answer.
        Err(Stop::Refused(refusal)) => ended(lines([refusal])),
        Err(Stop::Io(error)) => ended(Err(error)),
        Err(Stop::Failed(status, message)) => fail(status, &message),
    }
}

fn ended(written: io::Result<()>) -> ExitCode {
    match written {
        // Whoever closed the output has read enough.
        Err(error) if error.kind() != ErrorKind::BrokenPipe => fail(1, &error.to_string()),
        _ => ExitCode::SUCCESS,
    }
}

fn fail(status: u8, message: &str) -> ExitCode {
    // With the error output gone there is no one left to tell.
    let _ = writeln!(io::stderr(), "dso-ref: {message}");
    ExitCode::from(status)
}

fn answer(args: &Args) -> Result<(), Stop> {
    match &args.wanted {
        Wanted::Help => return Ok(whole(args::HELP.as_bytes())?),
        Wanted::Record(bytes) => return Ok(whole(bytes)?),
        _ => {}
    }
    let order = match &args.source {
        Source::Bytes(bytes) => Order::from_record(bytes)?,
        Source::Input => Order::from_record(&input()?)?,
    };
    if let Some(lengths) = &args.set {
        return one_for_all(&order, lengths, args);
    }
    match args.wanted {
        Wanted::Events => lines(events::list(&order, args.lent.events)?)?,
        Wanted::Paths => {
            let paths = row::paths(&order, args.lent, args.method)?;
            lines(
                paths
                    .iter()
                    .map(|(weight, number)| format!("{weight} {number}")),
            )?;
        }
        _ if args.quote.is_empty() => {
            lines([row::row(&order, args.lent, args.of, args.method)?])?;
        }
        _ => quotes(&order, args)?,
    }
    Ok(())
}

/// The rows of all lengths; where one is refused, the others are still answered.
fn quotes(order: &Order, args: &Args) -> Result<(), Stop> {
    for &length in &args.quote {
        match quote::row(order, length, args.lent, args.method) {
            Ok(row) => lines([row])?,
            Err(Failure::Refused(refusal)) => lines([refusal])?,
            Err(failure) => return Err(failure.into()),
        }
    }
    Ok(())
}

/// The row of a set of lengths, or what each of them left.
fn one_for_all(order: &Order, lengths: &[usize], args: &Args) -> Result<(), Stop> {
    let set = Set::new(order.code(), order.degree(), order.threshold(), lengths)?;
    let (row, left) = set::row(&set, args.lent, args.method)?;
    match args.wanted {
        Wanted::Left => lines(left)?,
        _ => lines([row])?,
    }
    Ok(())
}

/// Standard input, as far as it can matter: past these bytes no length is right.
fn input() -> io::Result<Vec<u8>> {
    let mut bytes = Vec::new();
    io::stdin().take(65_538).read_to_end(&mut bytes)?;
    Ok(bytes)
}

fn whole(bytes: &[u8]) -> io::Result<()> {
    let mut out = io::stdout();
    out.write_all(bytes)?;
    out.flush()
}

fn lines<T: Display>(items: impl IntoIterator<Item = T>) -> io::Result<()> {
    let mut out = BufWriter::new(io::stdout());
    for item in items {
        writeln!(out, "{item}")?;
    }
    out.flush()
}
