//! Point 2: a path may be lost where the frame's end meets its start. Then a
//! rotation of some other path is missing in the list. On a terminated link
//! nothing turns, and a word that is moved within its N bits keeps its weight:
//! there a shift of some other path is missing.

use super::Paths;
use dohvrin::Link;
use std::io::{self, Write};
use std::iter::successors;

/// The lightest weights are looked at closely.
const WEIGHTS: usize = 3;
/// Paths shown of each of them.
const SHOWN: usize = 4;

/// Whether no rotation, or shift, is missing.
pub fn write(out: &mut impl Write, paths: &Paths) -> io::Result<bool> {
    let (name, moved) = match paths.link {
        Link::TailBiting => ("rotation", "turned by one place"),
        Link::Terminated => ("shift", "moved by one place either way"),
    };
    writeln!(out, "\n2. Every {name} of a path is in the list")?;
    for (weight, part) in paths.weights().take(WEIGHTS) {
        let classes = classes(paths, part, name);
        writeln!(out, "   weight {weight}: {classes}")?;
    }
    let lost = lost(paths);
    for (weight, path) in lost.iter().take(SHOWN) {
        writeln!(out, "   MISSING at weight {weight}: {path:#X} {moved}")?;
    }
    let all: usize = paths.weights().map(|(_, part)| part.len()).sum();
    let found = all - lost.len();
    writeln!(
        out,
        "   all weights: {found} of {all} paths, {moved}, are in the list"
    )?;
    Ok(lost.is_empty())
}

/// The paths, with their weights, that moved by one place are not in the list.
/// Where there are none, none moved by more places is missing either.
fn lost(paths: &Paths) -> Vec<(usize, u128)> {
    let mut lost = Vec::new();
    for (weight, part) in paths.weights() {
        let missing = |word: u128| part.binary_search(&word).is_err();
        let lonely = |path: &&u128| moves(paths, **path).into_iter().any(missing);
        lost.extend(part.iter().filter(lonely).map(|&path| (weight, path)));
    }
    lost
}

/// The word moved by one place: turned on, or shifted to where it stays within
/// its bits with all its ones.
fn moves(paths: &Paths, word: u128) -> Vec<u128> {
    match paths.link {
        Link::TailBiting => vec![paths.turned(word)],
        Link::Terminated => {
            let on = (word >> (paths.bits - 1) == 0).then_some(word << 1);
            let back = (word & 1 == 0).then_some(word >> 1);
            on.into_iter().chain(back).collect()
        }
    }
}

/// The paths of one weight, one of each class of rotations or shifts, and how
/// many of these are in the list.
fn classes(paths: &Paths, part: &[u128], name: &str) -> String {
    let listed = |word: &&u128| part.binary_search(word).is_ok();
    let mut classes = Vec::new();
    for &path in part {
        let turns = class(paths, path);
        if turns
            .iter()
            .filter(|&&turn| turn < path)
            .any(|turn| listed(&turn))
        {
            continue;
        }
        let found = turns.iter().filter(listed).count();
        classes.push(format!("{path:#X} ({found} of {})", turns.len()));
    }
    let shown = classes[..classes.len().min(SHOWN)].join(", ");
    let more = if classes.len() > SHOWN { ", .." } else { "" };
    format!(
        "{} paths, the {name}s of {}: {shown}{more}",
        part.len(),
        classes.len()
    )
}

/// The word and all its other rotations, or shifts, each once.
fn class(paths: &Paths, word: u128) -> Vec<u128> {
    match paths.link {
        Link::TailBiting => {
            let next = |&turn: &u128| Some(paths.turned(turn)).filter(|&next| next != word);
            successors(Some(word), next).collect()
        }
        Link::Terminated => {
            let first = word >> word.trailing_zeros();
            let room = first.leading_zeros() - (128 - paths.bits);
            (0..=room).map(|places| first << places).collect()
        }
    }
}

#[cfg(test)]
mod tests {
    use super::write;
    use crate::checklist::Paths;
    use dohvrin::Link;

    fn said(by_weight: Vec<Vec<u128>>) -> (bool, String) {
        said_of(Link::TailBiting, by_weight)
    }

    fn said_of(link: Link, by_weight: Vec<Vec<u128>>) -> (bool, String) {
        let mut out = Vec::new();
        let bits = 4;
        let paths = Paths {
            link,
            bits,
            by_weight,
        };
        let fine = write(&mut out, &paths).unwrap();
        (fine, String::from_utf8(out).unwrap())
    }

    #[test]
    fn shifts_stay_within_the_word() {
        let (fine, text) = said_of(Link::Terminated, vec![vec![1, 2, 4, 8], vec![5, 10, 15]]);
        assert!(fine);
        assert!(text.contains("weight 1: 4 paths, the shifts of 1: 0x1 (4 of 4)\n"));
        assert!(text.contains("weight 2: 3 paths, the shifts of 2: 0x5 (2 of 2), 0xF (1 of 1)\n"));
        // At either end, and in between.
        for lost in [1, 2, 8] {
            let rest = [1, 2, 4, 8].into_iter().filter(|&word| word != lost);
            let (fine, text) = said_of(Link::Terminated, vec![rest.collect()]);
            assert!(!fine && text.contains("MISSING at weight 1"), "{lost}");
        }
    }

    #[test]
    fn all_there() {
        let (fine, text) = said(vec![vec![], vec![1, 2, 4, 8], vec![5, 10, 15]]);
        assert!(fine);
        assert!(text.contains("weight 2: 4 paths, the rotations of 1: 0x1 (4 of 4)\n"));
        assert!(
            text.contains("weight 3: 3 paths, the rotations of 2: 0x5 (2 of 2), 0xF (1 of 1)\n")
        );
        assert!(text.contains("7 of 7 paths"));
    }

    #[test]
    fn one_lost() {
        let (fine, text) = said(vec![vec![1, 2, 4]]);
        assert!(!fine);
        assert!(text.contains("0x1 (3 of 4)"));
        assert!(text.contains("MISSING at weight 1: 0x4 turned by one place"));
    }
}
