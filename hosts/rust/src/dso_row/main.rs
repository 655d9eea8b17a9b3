//! `dso-row`: the row of an order, with tables as large as it needs. Every
//! digit of a row comes from the library's text; `--help` has the rest.

mod args;
mod asked;
mod check;
mod checklist;
mod desk;
mod head;
mod jobs;
mod json;
mod lengths;
mod list;
mod memory;
mod numbers;
mod progress;

use args::{Args, Source, Task};
use asked::{Asked, Wanted};
use desk::Made;
use dohvrin::{Link, Order, Refusal};
use jobs::Note;
use numbers::Numbers;
use std::fs::File;
use std::io::{self, ErrorKind, Read, Write};
use std::process::ExitCode;

/// Why the program ends before it has answered.
enum Stop {
    /// An answer, too: the exit status is 0.
    Refused(Refusal),
    /// Reading or writing failed: 1.
    Io(io::Error),
    /// Bad arguments: 2.
    Arguments(String),
    /// A row or a list is not as it should be, and this was printed: 3.
    Differs,
}

impl From<io::Error> for Stop {
    fn from(error: io::Error) -> Stop {
        Stop::Io(error)
    }
}

impl From<Refusal> for Stop {
    fn from(refusal: Refusal) -> Stop {
        Stop::Refused(refusal)
    }
}

fn main() -> ExitCode {
    let arguments = std::env::args_os()
        .skip(1)
        .map(|argument| argument.to_string_lossy().into_owned());
    let stop = match args::read(arguments) {
        Err(message) => Err(Stop::Arguments(message)),
        Ok(args) => match answer(&args) {
            Err(Stop::Refused(refusal)) => {
                refused("", refusal, args.link, &args.asked[0], args.json)
            }
            other => other,
        },
    };
    match stop {
        Ok(()) | Err(Stop::Refused(_)) => ExitCode::SUCCESS,
        Err(Stop::Io(error)) => {
            // Whoever closed the output needs no message.
            if error.kind() != ErrorKind::BrokenPipe {
                tell(&error.to_string());
            }
            ExitCode::from(1)
        }
        Err(Stop::Arguments(message)) => {
            tell(&message);
            ExitCode::from(2)
        }
        Err(Stop::Differs) => ExitCode::from(3),
    }
}

fn answer(args: &Args) -> Result<(), Stop> {
    match &args.task {
        Task::Help => put(args::HELP.as_bytes())?,
        Task::Row(source) => each(source, args, |wanted| {
            let Made { answer, left, .. } = made(wanted, args)?;
            let row = answer?;
            let text = match args.json {
                true => json::of(&row.text(), row.order().link(), &left),
                false => row.text(),
            };
            Ok(put(text.as_bytes())?)
        })?,
        Task::Checklist(source) => each(source, args, |wanted| sign(wanted, args))?,
        Task::Record(source) => put(&order(source)?.record())?,
        Task::RecordHex(source) => {
            let bytes = order(source)?.record();
            let pairs: Vec<String> = bytes.iter().map(|byte| format!("{byte:02X}")).collect();
            put(format!("{}\n", pairs.join(" ")).as_bytes())?;
        }
        Task::List(file) => list::write(file, args)?,
        Task::Check(file) => check::write(file, args)?,
    }
    Ok(())
}

/// Answers all that is asked for of an order; where one thing is refused, the
/// others are still answered. Of several, a refused one has its ORDER line as its
/// head: NO alone would not say which it is.
fn each(
    source: &Source,
    args: &Args,
    answer: impl Fn(Wanted) -> Result<(), Stop>,
) -> Result<(), Stop> {
    let numbers = given(source)?;
    for asked in &args.asked {
        let head = match args.asked.len() {
            1 => String::new(),
            _ => format!("{}\n", asked.printed(&numbers)),
        };
        let wanted = asked.of(numbers.any()).map_err(Stop::from);
        match wanted.and_then(&answer) {
            Err(Stop::Refused(refusal)) => {
                refused(&head, refusal, numbers.link(), asked, args.json)?;
            }
            other => other?,
        }
    }
    Ok(())
}

/// An order as it is typed; a record has passed its questions.
fn given(source: &Source) -> Result<Numbers, Stop> {
    Ok(match source {
        Source::Numbers(numbers) => numbers.clone(),
        Source::Input => {
            // As far as it can matter: past these bytes no length is right.
            let mut bytes = Vec::new();
            io::stdin().take(65_538).read_to_end(&mut bytes)?;
            Numbers::of(&Order::from_record(&bytes)?)
        }
    })
}

fn order(source: &Source) -> Result<Order, Stop> {
    Ok(Order::of(given(source)?.any())?)
}

/// The row that is wanted.
fn made(wanted: Wanted, args: &Args) -> Result<Made, Stop> {
    let desk = args.desk();
    jobs::alone(move |notes| desk.row(&wanted, notes))
}

/// The row and the checklist.
fn sign(wanted: Wanted, args: &Args) -> Result<(), Stop> {
    let Made {
        answer,
        left,
        tables,
        ..
    } = made(wanted, args)?;
    let row = answer?;
    put(row.text().as_bytes())?;
    let (points, right) = jobs::alone(move |notes| {
        notes(Note::Now("the checklist".to_string()));
        let mut points = Vec::new();
        let right = checklist::write(&mut points, &row, &left, &tables);
        right.map(|right| (points, right))
    })??;
    put(&points)?;
    if right {
        Ok(())
    } else {
        Err(Stop::Differs)
    }
}

/// Whatever a file holds, as text; - is standard input.
fn text_of(file: &str) -> io::Result<String> {
    let mut bytes = Vec::new();
    let read = match file {
        "-" => io::stdin().read_to_end(&mut bytes),
        _ => File::open(file).and_then(|mut opened| opened.read_to_end(&mut bytes)),
    };
    read.map_err(|error| io::Error::new(error.kind(), format!("{file}: {error}")))?;
    Ok(String::from_utf8_lossy(&bytes).into_owned())
}

/// The line of a refusal under this head, and on standard error what it means.
fn refused(
    head: &str,
    refusal: Refusal,
    link: Link,
    asked: &Asked,
    json: bool,
) -> Result<(), Stop> {
    let mut text = format!("{head}{}", refusal.text());
    if json {
        text = json::refused(&text, link, asked);
    }
    put(text.as_bytes())?;
    tell(&refusal.to_string());
    Ok(())
}

fn put(bytes: &[u8]) -> io::Result<()> {
    let mut out = io::stdout();
    out.write_all(bytes)?;
    out.flush()
}

/// One line on standard error.
fn tell(message: &str) {
    // With standard error gone there is no one left to tell.
    let _ = writeln!(io::stderr(), "dso-row: {message}");
}
