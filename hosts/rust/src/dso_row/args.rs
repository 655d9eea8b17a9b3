//! The command line.

use crate::asked::Asked;
use crate::desk::Desk;
use crate::memory::Memory;
use crate::numbers::{self, digits, Numbers};
use dohvrin::{Entries, Link};
use std::thread;

/// What `--help` prints.
pub const HELP: &str = include_str!("help.txt");

/// MiB that the tables may have, where no option says otherwise.
const MEMORY: usize = 1024;

/// Where an order comes from.
pub enum Source {
    Numbers(Numbers),
    /// A record on standard input.
    Input,
}

/// What is to be printed.
pub enum Task {
    Help,
    Row(Source),
    Checklist(Source),
    Record(Source),
    RecordHex(Source),
    /// The rows of the orders in a file.
    List(String),
    /// Whether the rows in a file are right.
    Check(String),
}

/// The command line, read.
pub struct Args {
    pub task: Task,
    /// What is asked for of each order: one row at least.
    pub asked: Vec<Asked>,
    pub json: bool,
    /// The kind of link of an order that does not say it.
    pub link: Link,
    /// How many orders of a file are worked on at a time.
    pub jobs: usize,
    /// MiB that event and path tables may have.
    memory: usize,
    /// Their sizes, where they are not those that a row needs.
    entries: Option<Entries>,
}

impl Args {
    /// What rows are made with.
    pub fn desk(&self) -> Desk {
        Desk {
            entries: self.entries,
            memory: Memory::new(self.memory << 20),
            left: self.json || matches!(self.task, Task::Checklist(_)),
        }
    }
}

#[derive(Default)]
struct Options {
    help: bool,
    json: bool,
    terminated: bool,
    of: Option<u64>,
    quote: Vec<u64>,
    sets: Vec<Vec<u64>>,
    jobs: Option<usize>,
    memory: Option<usize>,
    events: Option<usize>,
    paths: Option<usize>,
    other: Option<Other>,
}

/// What an option wants instead of the row of an order.
enum Other {
    Checklist,
    Record,
    RecordHex,
    List(String),
    Check(String),
}

impl Other {
    fn option(&self) -> &'static str {
        match self {
            Other::Checklist => "--checklist",
            Other::Record => "--record",
            Other::RecordHex => "--record-hex",
            Other::List(_) => "--file",
            Other::Check(_) => "--check",
        }
    }
}

/// Reads the arguments after the program's name. The error names the argument.
pub fn read(arguments: impl Iterator<Item = String>) -> Result<Args, String> {
    let mut options = Options::default();
    let mut order = Vec::new();
    let mut rest = arguments;
    while let Some(argument) = rest.next() {
        if argument.starts_with('-') && argument != "-" {
            options.take(&argument, &mut rest)?;
        } else {
            order.push(argument);
        }
    }
    options.check()?;
    Ok(Args {
        asked: options.asked(),
        json: options.json,
        link: options.link(),
        jobs: options.jobs()?,
        memory: options.memory.unwrap_or(MEMORY),
        entries: options.entries()?,
        task: options.task(&order)?,
    })
}

impl Options {
    fn take(
        &mut self,
        option: &str,
        rest: &mut impl Iterator<Item = String>,
    ) -> Result<(), String> {
        let mut value = || {
            rest.next()
                .ok_or_else(|| format!("{option}: its value is missing (see --help)"))
        };
        match option {
            "--help" => self.help = true,
            "--json" => self.json = true,
            "--terminated" => self.terminated = true,
            "--of" => self.of = Some(polynomial(&value()?)?),
            "--quote" => self.quote.extend(lengths(option, &value()?)?),
            "--lengths" => self.sets.push(lengths(option, &value()?)?),
            "--jobs" => self.jobs = Some(jobs(&value()?)?),
            "--memory" => self.memory = Some(memory(&value()?)?),
            "--events" => self.events = Some(entries(option, &value()?)?),
            "--paths" => self.paths = Some(entries(option, &value()?)?),
            "--checklist" => self.take_other(Other::Checklist)?,
            "--record" => self.take_other(Other::Record)?,
            "--record-hex" => self.take_other(Other::RecordHex)?,
            "--file" => self.take_other(Other::List(value()?))?,
            "--check" => self.take_other(Other::Check(value()?))?,
            _ => return Err(format!("{option}: no such option (see --help)")),
        }
        Ok(())
    }

    fn take_other(&mut self, other: Other) -> Result<(), String> {
        if let Some(before) = &self.other {
            let (one, two) = (other.option(), before.option());
            return Err(format!("{one}: not together with {two}"));
        }
        self.other = Some(other);
        Ok(())
    }

    /// What may not stand together.
    fn check(&self) -> Result<(), String> {
        let (json, of, quote) = match self.other {
            None | Some(Other::List(_)) => (true, true, true),
            Some(Other::Check(_)) => (false, true, false),
            Some(Other::Checklist) => (false, false, true),
            Some(Other::Record | Other::RecordHex) => (false, false, false),
        };
        let (has_of, has_quote) = (self.of.is_some(), !self.quote.is_empty());
        let has_set = !self.sets.is_empty();
        let other = self.other.as_ref().map_or("", Other::option);
        for (option, given, may_stand) in [
            ("--json", self.json, json),
            ("--of", has_of, of),
            ("--quote", has_quote, quote),
            ("--lengths", has_set, quote),
        ] {
            if given && !may_stand {
                return Err(format!("{option}: not together with {other}"));
            }
        }
        if has_of && has_quote {
            return Err("--quote: not together with --of".to_string());
        }
        if has_set && (has_of || has_quote) {
            return Err("--lengths: not together with --of or --quote".to_string());
        }
        Ok(())
    }

    fn asked(&self) -> Vec<Asked> {
        match self.of {
            Some(polynomial) => vec![Asked::Of(polynomial)],
            None if !self.sets.is_empty() => self.sets.iter().cloned().map(Asked::Set).collect(),
            None if self.quote.is_empty() => vec![Asked::Best],
            None => self.quote.iter().map(|&bits| Asked::Quote(bits)).collect(),
        }
    }

    fn link(&self) -> Link {
        match self.terminated {
            true => Link::Terminated,
            false => Link::TailBiting,
        }
    }

    fn jobs(&self) -> Result<usize, String> {
        let of_a_file = matches!(self.other, Some(Other::List(_) | Other::Check(_)));
        match self.jobs {
            Some(_) if !of_a_file => Err("--jobs: not without --file or --check".to_string()),
            Some(jobs) => Ok(jobs),
            None => Ok(thread::available_parallelism().map_or(1, usize::from)),
        }
    }

    fn entries(&self) -> Result<Option<Entries>, String> {
        let (events, paths) = match (self.events, self.paths) {
            (None, None) => return Ok(None),
            (Some(events), Some(paths)) => (events, paths),
            (Some(_), None) => return Err("--events: not without --paths".to_string()),
            (None, Some(_)) => return Err("--paths: not without --events".to_string()),
        };
        let memory = self.memory.unwrap_or(MEMORY);
        let entries = Entries { events, paths }.within(memory << 20);
        entries
            .map(Some)
            .map_err(|_| format!("--events {events} --paths {paths}: not within --memory {memory}"))
    }

    fn task(self, order: &[String]) -> Result<Task, String> {
        if self.help {
            return Ok(Task::Help);
        }
        let source = |order| source(order, self.link());
        Ok(match self.other {
            None => Task::Row(source(order)?),
            Some(Other::Checklist) => Task::Checklist(source(order)?),
            Some(Other::Record) => Task::Record(source(order)?),
            Some(Other::RecordHex) => Task::RecordHex(source(order)?),
            Some(Other::List(file)) => no_order(order, Task::List(file))?,
            Some(Other::Check(file)) => no_order(order, Task::Check(file))?,
        })
    }
}

/// A task whose orders are in a file alone.
fn no_order(order: &[String], task: Task) -> Result<Task, String> {
    match order.first() {
        Some(word) => Err(format!("{word}: an order beside the file")),
        None => Ok(task),
    }
}

fn source(order: &[String], link: Link) -> Result<Source, String> {
    let words: Vec<&str> = order.iter().map(String::as_str).collect();
    match (&words[..], link) {
        (["-"], Link::TailBiting) => Ok(Source::Input),
        (["-"], _) => Err("--terminated: a record says it by its version".to_string()),
        ([], _) => Err("an order is missing (see --help)".to_string()),
        _ => Numbers::read(&words, link).map(Source::Numbers),
    }
}

fn polynomial(value: &str) -> Result<u64, String> {
    value
        .strip_prefix("0x")
        .and_then(|word| digits(word, 16))
        .ok_or_else(|| format!("--of {value}: not a polynomial in hexadecimal such as 0x61"))
}

fn lengths(option: &str, value: &str) -> Result<Vec<u64>, String> {
    numbers::lengths(value)
        .ok_or_else(|| format!("{option} {value}: not lengths such as 70 or 70,64"))
}

fn jobs(value: &str) -> Result<usize, String> {
    digits(value, 10)
        .and_then(|number| usize::try_from(number).ok())
        .filter(|&number| number > 0)
        .ok_or_else(|| format!("--jobs {value}: not a number of jobs"))
}

fn memory(value: &str) -> Result<usize, String> {
    digits(value, 10)
        .and_then(|number| usize::try_from(number).ok())
        .filter(|&number| number > 0 && number <= usize::MAX >> 20)
        .ok_or_else(|| format!("--memory {value}: not a number of MiB"))
}

fn entries(option: &str, value: &str) -> Result<usize, String> {
    digits(value, 10)
        .and_then(|number| usize::try_from(number).ok())
        .ok_or_else(|| format!("{option} {value}: not a number of entries"))
}
