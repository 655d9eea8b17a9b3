//! A price list: the rows of several orders.

use crate::args::Args;
use crate::asked::Asked;
use crate::head::Head;
use crate::lengths::Left;
use crate::numbers::Numbers;
use crate::{jobs, json, put, text_of, Stop};
use dohvrin::{Link, Refusal, Row};

/// Writes one row after another, in the order of the file, each by one write.
/// All lines are read before the first is made.
pub fn write(file: &str, args: &Args) -> Result<(), Stop> {
    let wrong = |why| Stop::Arguments(format!("{file}, {why}"));
    let orders = orders(&text_of(file)?, args.link).map_err(wrong)?;
    if orders.is_empty() {
        return Err(wrong("no order in it".to_string()));
    }
    let (desk, as_json) = (args.desk(), args.json);
    let lines = move |(numbers, asked): &(Numbers, Asked), notes: jobs::Notes| {
        let answer = desk.one_of(numbers, asked, notes);
        match as_json {
            true => in_json(numbers, asked, answer),
            false => in_lines(numbers, asked, answer),
        }
    };
    let rows = rows(orders, &args.asked);
    jobs::run(rows, args.jobs, lines, |row| Ok(put(row.as_bytes())?))
}

/// A row and what each length of its set left, or a refusal.
type Answer = Result<(Row, Vec<Left>), Refusal>;

/// A row or a refusal as `--check` reads it again: what a row does not say, the
/// kind of link and the lengths of a set, stands before it.
fn in_lines(numbers: &Numbers, asked: &Asked, answer: Answer) -> String {
    match answer {
        Ok((row, _)) => asked.before(numbers) + &row.text(),
        Err(refusal) => format!("{}\n{}", asked.line(numbers), refusal.text()),
    }
}

/// The same as JSON, which has a place for both.
fn in_json(numbers: &Numbers, asked: &Asked, answer: Answer) -> String {
    let link = numbers.link();
    match answer {
        Ok((row, left)) => json::of(&row.text(), link, &left),
        Err(refusal) => {
            let text = format!("{}\n{}", asked.printed(numbers), refusal.text());
            json::refused(&text, link, asked)
        }
    }
}

/// All that is asked for of each order in turn: what its line says, or else the
/// options.
fn rows(orders: Vec<(Numbers, Option<Asked>)>, asked: &[Asked]) -> Vec<(Numbers, Asked)> {
    let of_one = |(order, own): (Numbers, Option<Asked>)| {
        let asked = own.map_or(asked.to_vec(), |own| vec![own]);
        asked.into_iter().map(move |one| (order.clone(), one))
    };
    orders.into_iter().flat_map(of_one).collect()
}

/// The order of each line, of this kind of link where the line does not say it,
/// and what the line asks for; empty lines and # lines are passed over. The error
/// says in which line it is.
fn orders(text: &str, link: Link) -> Result<Vec<(Numbers, Option<Asked>)>, String> {
    let lines = text.lines().zip(1..);
    let read = |(line, at): (&str, usize)| {
        let head = Head::of(line.trim_start());
        let numbers = Numbers::read_line(head.order, head.kind.unwrap_or(link));
        let numbers = numbers.map_err(|why| format!("line {at}: {why}"))?;
        Ok((numbers, head.asked))
    };
    lines
        .filter(|(line, _)| !line.trim().is_empty() && !line.starts_with('#'))
        .map(read)
        .collect()
}
