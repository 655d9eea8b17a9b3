//! The command line.

use dso_ref::link::Kind;
use dso_ref::order::record_bytes;
use dso_ref::{Lent, Method};

/// What `--help` prints.
pub const HELP: &str = "\
usage: dso-ref [options] n v N m d g1 .. gn
       dso-ref [options] -

Prints the row of an order as dso does. The order is given as the ORDER line
shows it, generators in octal and the rest decimal, or with - as a record on
standard input.

  --terminated     a terminated link: v zeros follow the word
  --events E       entries of the event table (512)
  --paths P        entries of the path table (2048)
  --of 0x61        undetected counts of this polynomial, without a search: the
                   last line is CRC 0x61 0
  --quote N'       the row of the length N' instead, question 13 being about N;
                   several lengths as 70,64, or one after each --quote
  --lengths L      one polynomial for all of these lengths, as 70,64,52, longest
                   first: the row of the longest. N is asked about as ever, and
                   else not looked at
  --list events    the events instead of the row: state length weight input
  --list paths     the paths instead of the row: weight number
  --list left      with --lengths, what each length left instead of the row: the
                   length, the first undetected weight, how many polynomials
  --method M       words (N up to 20), table, or both, compared (both)
  --record         the order's record on standard output instead of the row
  --help           this text

Exit status: 0 answered, refusals included; 1 reading or writing failed;
2 bad arguments; 3 the two methods disagree.
";

/// Where the record comes from.
pub enum Source {
    Input,
    Bytes(Vec<u8>),
}

/// What is to be printed.
pub enum Wanted {
    Row,
    Events,
    Paths,
    Left,
    Record(Vec<u8>),
    Help,
}

/// The command line, read.
pub struct Args {
    pub source: Source,
    pub wanted: Wanted,
    pub lent: Lent,
    pub of: Option<u64>,
    /// The lengths whose rows are wanted; none for the order's own.
    pub quote: Vec<usize>,
    /// The lengths of a set, where its row is wanted.
    pub set: Option<Vec<usize>>,
    pub method: Method,
}

#[derive(Default)]
struct Options {
    lent: Lent,
    of: Option<u64>,
    quote: Vec<usize>,
    set: Option<Vec<usize>>,
    method: Option<Method>,
    list: Option<Wanted>,
    terminated: bool,
    record: bool,
    help: bool,
}

/// Reads the arguments after the program's name. The error names the argument.
pub fn read(arguments: impl Iterator<Item = String>) -> Result<Args, String> {
    let mut options = Options::default();
    let mut order = Vec::new();
    let mut rest = arguments;
    while let Some(argument) = rest.next() {
        if argument.starts_with('-') && argument != "-" {
            options.take(&argument, &mut rest)?;
        } else {
            order.push(argument);
        }
    }
    options.finish(&order)
}

impl Options {
    fn take(
        &mut self,
        option: &str,
        rest: &mut impl Iterator<Item = String>,
    ) -> Result<(), String> {
        let mut value = || {
            rest.next()
                .ok_or_else(|| format!("{option}: its value is missing"))
        };
        match option {
            "--events" => self.lent.events = capacity(option, &value()?)?,
            "--paths" => self.lent.paths = capacity(option, &value()?)?,
            "--of" => self.of = Some(polynomial(&value()?)?),
            "--quote" => self.quote.extend(lengths(option, &value()?)?),
            "--lengths" => self.set = Some(lengths(option, &value()?)?),
            "--method" => self.method = Some(method(&value()?)?),
            "--list" => self.list = Some(listed(&value()?)?),
            "--terminated" => self.terminated = true,
            "--record" => self.record = true,
            "--help" => self.help = true,
            _ => return Err(format!("{option}: no such option (see --help)")),
        }
        Ok(())
    }

    fn finish(self, order: &[String]) -> Result<Args, String> {
        let method = self.method.unwrap_or(Method::Both);
        let args = |source, wanted| Args {
            source,
            wanted,
            lent: self.lent,
            of: self.of,
            quote: self.quote.clone(),
            set: self.set.clone(),
            method,
        };
        if self.help {
            return Ok(args(Source::Input, Wanted::Help));
        }
        let other = self.record || self.list.is_some() || self.of.is_some();
        if other && !self.quote.is_empty() {
            return Err("--quote: not together with --record, --list or --of".to_string());
        }
        let of_a_set = matches!(self.list, Some(Wanted::Left));
        if of_a_set && self.set.is_none() {
            return Err("--list left: not without --lengths".to_string());
        }
        let other = other && !of_a_set || !self.quote.is_empty();
        if other && self.set.is_some() {
            return Err(
                "--lengths: not together with --record, --of, --quote, or --list events or paths"
                    .to_string(),
            );
        }
        if self.record && (self.list.is_some() || self.of.is_some()) {
            return Err("--record: not together with --list or --of".to_string());
        }
        if self.list.is_some() && self.of.is_some() {
            return Err("--of: not together with --list".to_string());
        }
        let wanted = self.list.unwrap_or(Wanted::Row);
        if order == ["-"] {
            if self.record {
                return Err("-: with --record the order is given as numbers".to_string());
            }
            if self.terminated {
                return Err("--terminated: a record says it by its version".to_string());
            }
            return Ok(args(Source::Input, wanted));
        }
        let kind = match self.terminated {
            true => Kind::Terminated,
            false => Kind::TailBiting,
        };
        let bytes = record(kind, order)?;
        if self.record {
            return Ok(args(Source::Input, Wanted::Record(bytes)));
        }
        Ok(args(Source::Bytes(bytes), wanted))
    }
}

fn capacity(option: &str, value: &str) -> Result<usize, String> {
    value
        .parse()
        .map_err(|_| format!("{option} {value}: not a number of entries"))
}

fn polynomial(value: &str) -> Result<u64, String> {
    let digits = value
        .strip_prefix("0x")
        .or_else(|| value.strip_prefix("0X"));
    digits
        .filter(|digits| !digits.starts_with('+'))
        .and_then(|digits| u64::from_str_radix(digits, 16).ok())
        .ok_or_else(|| format!("--of {value}: not a polynomial in hexadecimal such as 0x61"))
}

/// One length, or several between commas.
fn lengths(option: &str, value: &str) -> Result<Vec<usize>, String> {
    let length = |word| digits(word, 10).and_then(|number| usize::try_from(number).ok());
    let all = value.split(',').map(length).collect::<Option<_>>();
    all.ok_or_else(|| format!("{option} {value}: not lengths such as 70 or 70,64"))
}

fn method(value: &str) -> Result<Method, String> {
    match value {
        "words" => Ok(Method::Words),
        "table" => Ok(Method::Table),
        "both" => Ok(Method::Both),
        _ => Err(format!("--method {value}: neither words, table nor both")),
    }
}

fn listed(value: &str) -> Result<Wanted, String> {
    match value {
        "events" => Ok(Wanted::Events),
        "paths" => Ok(Wanted::Paths),
        "left" => Ok(Wanted::Left),
        _ => Err(format!("--list {value}: neither events, paths nor left")),
    }
}

/// The record of the numbers. Whatever a record can say is left to the
/// questions: a wrong number of generators, say, or N = 129.
fn record(kind: Kind, order: &[String]) -> Result<Vec<u8>, String> {
    let mut numbers = [0; 5];
    for (at, name) in ["n", "v", "N", "m", "d"].iter().enumerate() {
        let value = order
            .get(at)
            .ok_or_else(|| format!("{name}: missing (see --help)"))?;
        numbers[at] = digits(value, 10)
            .and_then(|number| u8::try_from(number).ok())
            .ok_or_else(|| format!("{value}: {name} is not a decimal number up to 255"))?;
    }
    let mut generators = Vec::new();
    for value in &order[5..] {
        let generator = digits(value, 8)
            .and_then(|number| u16::try_from(number).ok())
            .ok_or_else(|| format!("{value}: a generator is not an octal number up to 177777"))?;
        generators.push(generator);
    }
    let too_many = || {
        format!(
            "{}: more generators than a record can hold",
            generators.len()
        )
    };
    record_bytes(kind, numbers, &generators).ok_or_else(too_many)
}

/// A number of digits alone: the parser of the language would take a sign.
fn digits(value: &str, radix: u32) -> Option<u64> {
    if value.starts_with('+') {
        return None;
    }
    u64::from_str_radix(value, radix).ok()
}
