//! The stored cases of tests/rows, answered by the library with tables of the
//! sizes that a case says.

use crate::orders::{answer, lend};
use crate::searched::{Asked, List};
use dso_ref::Lent;
use run_rows::cases::{self, Case};

/// How many cases of the files pass and fail; the error names a file that
/// cannot be read.
pub fn rows(files: &[String]) -> Result<(u64, u64), String> {
    let (mut passed, mut failed) = (0, 0);
    for file in files {
        let text = std::fs::read_to_string(file).map_err(|error| format!("{file}: {error}"))?;
        let cases = cases::read(&text).map_err(|wrong| format!("{file}: {wrong}"))?;
        for case in cases {
            let at = format!("{file}:{} {}", case.line, case.name);
            let (lent, asked) = asked(&case).ok_or_else(|| format!("{at}: not understood"))?;
            let text = answer(&mut lend(lent), &case.record, asked);
            if text == case.expected {
                passed += 1;
                continue;
            }
            failed += 1;
            println!("{at}: library {text:?}");
        }
    }
    Ok((passed, failed))
}

/// The sizes of the tables, and what is asked for.
fn asked(case: &Case) -> Option<(Lent, Asked)> {
    let lent = match &case.tables {
        None => Lent::default(),
        Some((events, paths)) => Lent {
            events: events.parse().ok()?,
            paths: paths.parse().ok()?,
        },
    };
    let asked = match (&case.of, &case.quote, &case.lengths) {
        (None, None, None) => Asked::Best,
        (Some(p), None, None) => Asked::Of(u64::from_str_radix(p.strip_prefix("0x")?, 16).ok()?),
        (None, Some(length), None) => Asked::Quote(length.parse().ok()?),
        (None, None, Some(lengths)) => {
            let lengths = lengths.split(',').map(|length| length.parse().ok());
            Asked::Set(List::of(&lengths.collect::<Option<Vec<_>>>()?))
        }
        _ => return None,
    };
    Some((lent, asked))
}
