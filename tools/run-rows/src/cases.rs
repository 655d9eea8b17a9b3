//! Files of stored cases.
//!
//! A case is a block of lines, ended by a blank line:
//!
//! ```text
//! # what the case shows
//! record 00 0A 01 02 01 04 02 06 00 01 00 03
//! tables 512 2048
//! of 0x5
//! expect
//! ORDER 2 1 4 2 6 1 3
//! ```
//!
//! `tables` and `of` may be left out; in place of `of` there may be `quote 3`, or
//! `lengths 4,3`. A byte may be repeated: `00*65536`. More lines with # may follow the first; a
//! block of them alone is a remark.

/// A record and what a program is to print for it.
#[derive(Debug, Default, PartialEq, Eq)]
pub struct Case {
    pub name: String,
    /// The line of the file where the case begins.
    pub line: usize,
    pub record: Vec<u8>,
    /// Entries of the event table and of the path table, where given.
    pub tables: Option<(String, String)>,
    /// The polynomial whose undetected counts are wanted, where given.
    pub of: Option<String>,
    /// The length that is to be quoted, where given.
    pub quote: Option<String>,
    /// The lengths of a set, between commas, where given.
    pub lengths: Option<String>,
    pub expected: String,
}

impl Case {
    /// Whether a program that takes no options can be run on the case.
    pub fn plain(&self) -> bool {
        self.tables.is_none() && self.asks_for_the_best()
    }

    /// Whether no line says what is asked for.
    fn asks_for_the_best(&self) -> bool {
        self.of.is_none() && self.quote.is_none() && self.lengths.is_none()
    }
}

/// The cases of a file's text. The error gives the line and what is wrong.
pub fn read(text: &str) -> Result<Vec<Case>, String> {
    let mut cases = Vec::new();
    let mut block: Vec<(usize, &str)> = Vec::new();
    // The blank line at the end closes the last block.
    for (number, line) in (1..).zip(text.lines().chain([""])) {
        if !line.trim().is_empty() {
            block.push((number, line));
        } else if block.iter().any(|(_, line)| !line.starts_with('#')) {
            cases.push(read_case(&block)?);
            block.clear();
        } else {
            block.clear();
        }
    }
    if cases.is_empty() {
        return Err("there is no case".to_string());
    }
    Ok(cases)
}

fn read_case(block: &[(usize, &str)]) -> Result<Case, String> {
    let (line, first) = block[0];
    let name = first.strip_prefix('#');
    let mut case = Case {
        name: name.unwrap_or_default().trim().to_string(),
        line,
        ..Case::default()
    };
    let mut records = 0;
    let mut rest = block.iter().filter(|(_, line)| !line.starts_with('#'));
    for (number, line) in rest.by_ref() {
        if line.trim() == "expect" {
            break;
        }
        records += usize::from(line.starts_with("record"));
        take_line(&mut case, line).map_err(|wrong| format!("line {number}: {wrong}"))?;
    }
    case.expected = rest.map(|(_, line)| format!("{line}\n")).collect();
    if name.is_none() || records != 1 || case.expected.is_empty() {
        return Err(format!(
            "line {line}: a case needs # name, one record, expect and expected lines"
        ));
    }
    Ok(case)
}

/// A line between the name and the expectation.
fn take_line(case: &mut Case, line: &str) -> Result<(), String> {
    let words: Vec<&str> = line.split_whitespace().collect();
    match words[..] {
        ["record", ..] => case.record = bytes(&words[1..])?,
        ["tables", events, paths] if case.tables.is_none() => {
            case.tables = Some((number_of(events)?, number_of(paths)?));
        }
        ["of", polynomial] if case.asks_for_the_best() => {
            case.of = Some(polynomial.to_string());
        }
        ["quote", length] if case.asks_for_the_best() => {
            case.quote = Some(number_of(length)?);
        }
        ["lengths", list] if case.asks_for_the_best() => {
            let lengths: Result<Vec<String>, String> = list.split(',').map(number_of).collect();
            case.lengths = Some(lengths?.join(","));
        }
        _ => return Err(format!("not understood: {line}")),
    }
    Ok(())
}

fn number_of(word: &str) -> Result<String, String> {
    match word.parse::<u64>() {
        Ok(number) => Ok(number.to_string()),
        Err(_) => Err(format!("not a number: {word}")),
    }
}

fn bytes(words: &[&str]) -> Result<Vec<u8>, String> {
    let mut bytes = Vec::new();
    for word in words {
        let (byte, times) = word.split_once('*').unwrap_or((word, "1"));
        let two_digits = byte.len() == 2 && byte.chars().all(|digit| digit.is_ascii_hexdigit());
        match (u8::from_str_radix(byte, 16), times.parse::<u32>()) {
            (Ok(byte), Ok(times)) if two_digits => bytes.resize(bytes.len() + times as usize, byte),
            _ => return Err(format!("not a byte in hexadecimal: {word}")),
        }
    }
    Ok(bytes)
}

#[cfg(test)]
mod tests {
    use super::*;

    #[test]
    fn a_file_of_two_cases_and_a_remark() {
        let text = "# a remark\n\n# one\n# more\nrecord 00 0a*2\nexpect\nNO 1\n\n\n\
                    # two\nrecord\ntables 1 2\nof 0x5\nexpect\nA\nB\n";
        let cases = read(text).unwrap();
        assert_eq!(cases.len(), 2);
        assert_eq!((&cases[0].name[..], cases[0].line), ("one", 3));
        assert_eq!(
            (&cases[0].record[..], cases[0].plain()),
            (&[0, 10, 10][..], true)
        );
        assert_eq!(cases[0].expected, "NO 1\n");
        assert_eq!((&cases[1].record[..], cases[1].plain()), (&[][..], false));
        assert_eq!(cases[1].tables, Some(("1".to_string(), "2".to_string())));
        assert_eq!(
            (cases[1].of.as_deref(), &cases[1].expected[..]),
            (Some("0x5"), "A\nB\n")
        );
    }

    #[test]
    fn a_length_to_quote() {
        let text = "# shorter\nrecord 00\nquote 070\nexpect\nNO 1\n";
        let case = &read(text).unwrap()[0];
        assert_eq!((case.quote.as_deref(), case.plain()), (Some("70"), false));
    }

    #[test]
    fn lengths_of_a_set() {
        let text = "# for all\nrecord 00\nlengths 070,64\nexpect\nNO 1\n";
        let case = &read(text).unwrap()[0];
        let lengths = case.lengths.as_deref();
        assert_eq!((lengths, case.plain()), (Some("70,64"), false));
    }

    #[test]
    fn what_is_not_understood_is_an_error() {
        for text in [
            "",
            "# a remark alone\n",
            "record 00\nexpect\nNO 1\n",
            "# no record\nexpect\nNO 1\n",
            "# no expectation\nrecord 00\n",
            "# nothing expected\nrecord 00\nexpect\n",
            "# no byte\nrecord 0\nexpect\nNO 1\n",
            "# no byte\nrecord 00 0G\nexpect\nNO 1\n",
            "# no byte\nrecord 00 +1\nexpect\nNO 1\n",
            "# no number\nrecord 00\ntables 1\nexpect\nNO 1\n",
            "# no number\nrecord 00\ntables 1 x\nexpect\nNO 1\n",
            "# two records\nrecord 00\nrecord 00\nexpect\nNO 1\n",
            "# no such line\nrecord 00\nwith 1\nexpect\nNO 1\n",
            "# no length\nrecord 00\nquote\nexpect\nNO 1\n",
            "# no length\nrecord 00\nquote x\nexpect\nNO 1\n",
            "# two lengths\nrecord 00\nquote 3 4\nexpect\nNO 1\n",
            "# two quotes\nrecord 00\nquote 3\nquote 4\nexpect\nNO 1\n",
            "# of and quote\nrecord 00\nof 0x5\nquote 3\nexpect\nNO 1\n",
            "# no length\nrecord 00\nlengths 4,\nexpect\nNO 1\n",
            "# two lists\nrecord 00\nlengths 4,3\nlengths 4\nexpect\nNO 1\n",
            "# quote and lengths\nrecord 00\nquote 3\nlengths 4\nexpect\nNO 1\n",
            "# quote and of\nrecord 00\nquote 3\nof 0x5\nexpect\nNO 1\n",
        ] {
            assert!(read(text).is_err(), "{text}");
        }
    }
}
