//! A line on the terminal while something runs long.

use std::collections::BTreeMap;
use std::io::{self, IsTerminal, Write};
use std::time::{Duration, Instant};

/// Only what takes longer is told of, and told of so often.
const PATIENCE: Duration = Duration::from_secs(1);

/// The columns that every terminal has: a longer line could not be taken back.
const COLUMNS: usize = 79;

/// What runs now, of so many items, and the line that says so.
pub struct Progress {
    terminal: bool,
    items: usize,
    done: usize,
    running: BTreeMap<usize, (String, Instant)>,
    due: Instant,
    shown: bool,
}

impl Progress {
    pub fn of(items: usize) -> Progress {
        Progress {
            terminal: io::stderr().is_terminal(),
            items,
            done: 0,
            running: BTreeMap::new(),
            due: Instant::now() + PATIENCE,
            shown: false,
        }
    }

    /// How long until the line is to be shown.
    pub fn due_in(&self) -> Duration {
        self.due.saturating_duration_since(Instant::now())
    }

    /// An item is worked on, and this is done for it.
    pub fn begins(&mut self, item: usize, what: String) {
        let now = Instant::now();
        let since = self.running.get(&item).map_or(now, |(_, since)| *since);
        self.running.insert(item, (what, since));
    }

    pub fn ends(&mut self, item: usize) {
        self.running.remove(&item);
        self.done += 1;
    }

    pub fn show(&mut self) {
        let now = Instant::now();
        self.due = now + PATIENCE;
        if self.terminal {
            write(&format!("\r\x1b[K{}", self.line(now)));
            self.shown = true;
        }
    }

    /// Takes the line back, before anything else is written.
    pub fn hide(&mut self) {
        if self.shown {
            write("\r\x1b[K");
            self.shown = false;
        }
    }

    /// What has run longest stands first.
    fn line(&self, now: Instant) -> String {
        let mut oldest: Vec<_> = self.running.values().collect();
        oldest.sort_by_key(|(_, since)| *since);
        let running: Vec<String> = oldest
            .iter()
            .map(|(what, since)| format!("{what} ({} s)", (now - *since).as_secs()))
            .collect();
        let rows = match self.items {
            1 => String::new(),
            all => format!("rows done {}, left {}, now ", self.done, all - self.done),
        };
        let mut line = format!("dso-row: {rows}{}", running.join(", "));
        if line.len() > COLUMNS {
            line.truncate(COLUMNS - 2);
            line.push_str("..");
        }
        line
    }
}

fn write(text: &str) {
    // With standard error gone there is no one left to tell.
    let _ = write!(io::stderr(), "{text}");
}

#[cfg(test)]
mod tests {
    use super::{Progress, COLUMNS};
    use std::time::{Duration, Instant};

    fn seconds(progress: &Progress, seconds: u64) -> String {
        progress.line(Instant::now() + Duration::from_millis(1000 * seconds + 500))
    }

    #[test]
    fn one_row() {
        let mut progress = Progress::of(1);
        progress.begins(0, "tables of 5 events and 13 paths".to_string());
        let line = "dso-row: tables of 5 events and 13 paths (3 s)";
        assert_eq!(seconds(&progress, 3), line);
    }

    #[test]
    fn a_list() {
        let mut progress = Progress::of(32);
        for (item, what) in ["2 1 4 2 6 1 3", "2 3 70 6 18 13 17", "2 1 4 2 5 1 3"]
            .iter()
            .enumerate()
        {
            progress.begins(item, what.to_string());
        }
        progress.ends(0);
        let line =
            "dso-row: rows done 1, left 31, now 2 3 70 6 18 13 17 (7 s), 2 1 4 2 5 1 3 (7 s)";
        assert_eq!(seconds(&progress, 7), line);
        for item in 3..20 {
            progress.begins(item, "2 8 76 12 21 561 753".to_string());
        }
        let line = seconds(&progress, 7);
        assert_eq!(line.len(), COLUMNS);
        assert!(line.ends_with(".."));
    }
}
