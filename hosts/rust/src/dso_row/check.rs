//! Whether rows that were printed before are what is computed now.

use crate::args::Args;
use crate::asked::Asked;
use crate::desk::Desk;
use crate::head::Head;
use crate::jobs::{self, Notes};
use crate::numbers::{digits, Numbers};
use crate::{put, text_of, Stop};
use dohvrin::Link;
use std::fmt;

/// What rows of the older form have after their PATHS line: no word is counted
/// there.
const WEIGHT_0: &str = "A 0 0 0";

/// What stood in place of a row of the older form, where several polynomials
/// share the best counts: how many they are stands after it.
const NO_CHOICE: &str = "NO 15 ";

/// What is said of a row.
enum Verdict {
    Same,
    /// The same but for what makes it one of the older form.
    Older(String),
    Differs(String),
}

impl fmt::Display for Verdict {
    fn fmt(&self, f: &mut fmt::Formatter) -> fmt::Result {
        match self {
            Verdict::Same => f.write_str("the same"),
            Verdict::Older(how) => write!(f, "the same, but of the older form: {how}"),
            Verdict::Differs(how) => write!(f, "DIFFERS, {how}"),
        }
    }
}

/// Writes a line for each row of a file, in their order.
pub fn write(file: &str, args: &Args) -> Result<(), Stop> {
    let wrong = |why| Stop::Arguments(format!("{file}, {why}"));
    let text = text_of(file)?;
    let rows = rows(&text).map_err(wrong)?;
    if rows.is_empty() {
        return Err(wrong("no row in it".to_string()));
    }
    let (desk, link, checked) = (args.desk(), args.link, rows.len());
    let (mut at, mut differ) = (0, 0);
    let asked = args.asked[0].clone();
    let compare = move |row: &Vec<String>, notes: Notes| {
        let head = Head::of(&row[0]);
        let asked = head.asked.as_ref().unwrap_or(&asked).clone();
        let lines = |numbers: &Numbers| lines(&desk, numbers, &asked, notes);
        (row[0].trim().to_string(), verdict(row, head, link, lines))
    };
    jobs::run(rows, args.jobs, compare, |(order, verdict)| {
        at += 1;
        differ += usize::from(matches!(verdict, Verdict::Differs(_)));
        Ok(put(format!("row {at}, {order}: {verdict}\n").as_bytes())?)
    })?;
    put(format!("rows checked: {checked}, different: {differ}\n").as_bytes())?;
    if differ == 0 {
        Ok(())
    } else {
        Err(Stop::Differs)
    }
}

/// What is computed now, under the line of the order itself: that is what a row
/// has before which a length to quote stands.
fn lines(desk: &Desk, numbers: &Numbers, asked: &Asked, notes: Notes) -> String {
    let text = match desk.one_of(numbers, asked, notes) {
        Ok((row, _)) => row.text(),
        Err(refusal) => return format!("{numbers}\n{}", refusal.text()),
    };
    match (asked, text.split_once('\n')) {
        (Asked::Quote(_), Some((_, rest))) => format!("{numbers}\n{rest}"),
        _ => text,
    }
}

/// The rows of a text: each begins at an ORDER line, before which a length to
/// quote or the lengths of a set, and the kind of link may stand. Empty lines are
/// passed over; the error is a line that stands before the first ORDER line.
fn rows(text: &str) -> Result<Vec<Vec<String>>, String> {
    let mut rows: Vec<Vec<String>> = Vec::new();
    for line in text.split('\n').filter(|line| !line.trim().is_empty()) {
        if Head::of(line).order.split_whitespace().next() == Some("ORDER") {
            rows.push(Vec::new());
        }
        match rows.last_mut() {
            Some(row) => row.push(line.to_string()),
            None => return Err(format!("{line:?}: no ORDER line before it")),
        }
    }
    Ok(rows)
}

/// How a printed row compares with what is computed now. A row does not say the
/// kind of its link, where no one wrote it before: one that holds for the other
/// kind is told as that.
fn verdict(row: &[String], head: Head, link: Link, lines: impl Fn(&Numbers) -> String) -> Verdict {
    let numbers = match Numbers::read_line(head.order, head.kind.unwrap_or(link)) {
        Ok(numbers) => numbers,
        Err(message) => return Verdict::Differs(format!("it is no order: {message}")),
    };
    let (row, now) = (Printed::of(row, head.order), lines(&numbers));
    let Some(how) = row.unlike(&now) else {
        return row.form(&now);
    };
    if let Some(crc) = row.chosen_since(&now) {
        let hint = format!("it is a refusal of the older form, and the last line is now {crc:?}");
        return Verdict::Differs(format!("{how}; {hint}"));
    }
    let other = numbers.for_other_link();
    if row.unlike(&lines(&other)).is_some() {
        return Verdict::Differs(how);
    }
    let hint = format!("it is the row of a {} link", other.link());
    Verdict::Differs(match head.kind {
        Some(kind) => format!("{how}; {hint}, and {kind} stands before it"),
        None => format!("{how}; {hint} (see --terminated)"),
    })
}

/// The number that a CRC line of the older form lacks, where all before it is
/// the same as in this line.
fn lacked<'a>(line: &str, now: &'a str) -> Option<&'a str> {
    let (before, number) = now.rsplit_once(' ')?;
    (now.starts_with("CRC ") && line == before).then_some(number)
}

/// A row as it was printed.
struct Printed<'a> {
    /// From ORDER on, and without the line of weight 0 of the older form.
    lines: Vec<&'a str>,
    /// The place of that line, where there was one.
    weight_0: Option<usize>,
}

impl Printed<'_> {
    fn of<'a>(row: &'a [String], order: &'a str) -> Printed<'a> {
        let rest = row[1..].iter().map(String::as_str);
        let mut lines: Vec<&str> = std::iter::once(order).chain(rest).collect();
        let older = |two: &[&str]| two[0].starts_with("PATHS ") && two[1] == WEIGHT_0;
        let paths = lines.windows(2).position(older);
        let weight_0 = paths.map(|place| place + 1);
        if let Some(place) = weight_0 {
            lines.remove(place);
        }
        Printed { lines, weight_0 }
    }

    /// What is said of it, where it is not unlike these lines.
    fn form(&self, now: &str) -> Verdict {
        let line = self.weight_0.map(|_| "with a line of weight 0".to_string());
        let last = self.lines.last().zip(now.lines().last());
        let number = last.and_then(|(line, now)| lacked(line, now));
        let number =
            number.map(|number| format!("without how many share the counts (now {number})"));
        let older: Vec<String> = line.into_iter().chain(number).collect();
        match older.is_empty() {
            true => Verdict::Same,
            false => Verdict::Older(older.join(", ")),
        }
    }

    /// The CRC line of these lines, where it is a refusal for want of a choice.
    fn chosen_since<'a>(&self, now: &'a str) -> Option<&'a str> {
        let [_, no] = self.lines[..] else {
            return None;
        };
        digits(no.strip_prefix(NO_CHOICE)?, 10)?;
        now.lines().last().filter(|line| line.starts_with("CRC "))
    }

    /// The first line in which it differs from these lines; that a CRC line lacks
    /// its number is no difference.
    fn unlike(&self, now: &str) -> Option<String> {
        let (row, now) = (&self.lines, now.lines().collect::<Vec<_>>());
        let like = |at: usize| match (row.get(at), now.get(at)) {
            (Some(line), Some(now)) => line == now || lacked(line, now).is_some(),
            _ => false,
        };
        let at = (0..row.len().max(now.len())).find(|&at| !like(at))?;
        let shown =
            |line: Option<&&str>| line.map_or("nothing".to_string(), |line| format!("{line:?}"));
        Some(format!(
            "line {} of the row is {}, now {}",
            self.number(at),
            shown(row.get(at)),
            shown(now.get(at))
        ))
    }

    /// The number of a line in the row as it was printed, from 1.
    fn number(&self, at: usize) -> usize {
        let before = self.weight_0.is_some_and(|place| place <= at);
        at + 1 + usize::from(before)
    }
}
