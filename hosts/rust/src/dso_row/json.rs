//! A row as JSON, made of the printed lines: no number is computed or written
//! anew. Generators and the polynomial, which are not decimal, are text. The
//! kind of link, which the lines do not say, stands first in the order.

use crate::asked::Asked;
use crate::lengths::Left;
use dohvrin::Link;

/// One line of JSON for the lines of a row of this kind of link, and for what each
/// length left, where it is that of a set.
pub fn of(text: &str, link: Link, left: &[Left]) -> String {
    let of_length = |Left { bits, first, who }: &Left| {
        let many = who.len();
        format!("{{\"N\":{bits},\"first\":{first},\"left\":{many}}}")
    };
    line(text, link, left.iter().map(of_length).collect())
}

/// The same for the lines of a refusal, with the lengths that were asked for.
pub fn refused(text: &str, link: Link, asked: &Asked) -> String {
    let lengths: &[u64] = match asked {
        Asked::Set(lengths) => lengths,
        _ => &[],
    };
    let of_length = |bits: &u64| format!("{{\"N\":{bits}}}");
    line(text, link, lengths.iter().map(of_length).collect())
}

fn line(text: &str, link: Link, lengths: Vec<String>) -> String {
    let lines: Vec<Vec<&str>> = text.lines().map(|l| l.split(' ').collect()).collect();
    let counts: Vec<String> = lines.iter().filter_map(|line| count(line)).collect();
    let counts = counts.join(",");
    let member = |line: &Vec<&str>| member(line, link, &counts);
    let mut members: Vec<String> = lines.iter().filter_map(member).collect();
    if !lengths.is_empty() {
        // After the order, where there is one, and before what is answered.
        let order = members[0].starts_with("\"order\"");
        let lengths = format!("\"lengths\":[{}]", lengths.join(","));
        members.insert(usize::from(order), lengths);
    }
    format!("{{{}}}\n", members.join(","))
}

/// What a line gives; the counts of all lines stand before the polynomial, which
/// every row has, and a row without such lines has none.
fn member(line: &[&str], link: Link, counts: &str) -> Option<String> {
    Some(match line {
        ["ORDER", n, v, bits, m, d, generators @ ..] => {
            let texts: Vec<String> = generators.iter().map(|g| format!("\"{g}\"")).collect();
            let texts = texts.join(",");
            format!(
                "\"order\":{{\"link\":\"{link}\",\"n\":{n},\"v\":{v},\"N\":{bits},\"m\":{m},\"d\":{d},\"generators\":[{texts}]}}"
            )
        }
        ["EVENTS", events] => format!("\"events\":{events}"),
        ["PATHS", paths] => format!("\"paths\":{paths}"),
        ["CRC", polynomial, shared] => {
            format!("\"counts\":[{counts}],\"crc\":\"{polynomial}\",\"shared\":{shared}")
        }
        ["NO", number] => format!("\"refusal\":{number}"),
        _ => return None,
    })
}

fn count(line: &[&str]) -> Option<String> {
    match line {
        ["A", w, plain, undetected] => Some(format!(
            "{{\"weight\":{w},\"plain\":{plain},\"undetected\":{undetected}}}"
        )),
        _ => None,
    }
}
