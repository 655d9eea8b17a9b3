//! Rows from tables as large as they need.

use crate::asked::{Asked, Wanted};
use crate::jobs::{Note, Notes};
use crate::lengths::Left;
use crate::memory::{Memory, Share};
use crate::numbers::Numbers;
use dohvrin::{Entries, NoRoom, Refusal, Row, Tables};
use std::sync::Arc;

/// What rows are made with. Each row gets tables of its own, so that none
/// depends on another.
pub struct Desk {
    /// The sizes of the tables, where they are not those that a row needs.
    pub entries: Option<Entries>,
    /// What the tables of all jobs share.
    pub memory: Arc<Memory>,
    /// Whether what each length of a set left is to be found, too.
    pub left: bool,
}

/// A row or a refusal, and the tables that it left.
pub struct Made {
    pub answer: Result<Row, Refusal>,
    pub left: Vec<Left>,
    pub tables: Tables,
    /// Given back after the tables, which stand before it.
    _share: Option<Share>,
}

impl Made {
    fn refused(refusal: Refusal) -> Made {
        Made {
            answer: Err(refusal),
            left: Vec::new(),
            tables: Tables::with_entries(0, 0),
            _share: None,
        }
    }
}

impl Desk {
    /// The row that is wanted.
    pub fn row(&self, wanted: &Wanted, notes: Notes) -> Made {
        if let Some(entries) = self.entries {
            let made = self.lend(wanted, entries, notes);
            return made.unwrap_or_else(|no_room| self.refuse(no_room, notes));
        }
        notes(Note::Now("counting events and paths".to_string()));
        if let Some(refusal) = refused_before(wanted) {
            return Made::refused(refusal);
        }
        match wanted.needed().within(self.memory.limit()) {
            Ok(needed) => self.row_from(wanted, needed, notes),
            Err(no_room) => self.refuse(no_room, notes),
        }
    }

    /// The row that is asked for, one of several, and what each length left: notes
    /// have its line before them.
    pub fn one_of(
        &self,
        numbers: &Numbers,
        asked: &Asked,
        notes: Notes,
    ) -> Result<(Row, Vec<Left>), Refusal> {
        let line = asked.line(numbers);
        notes(Note::Now(line.replace("ORDER ", "")));
        let about = |note| {
            if let Note::Tell(message) = note {
                notes(Note::Tell(format!("{line}: {message}")));
            }
        };
        let row = |wanted: Wanted| {
            let made = self.row(&wanted, &about);
            Ok((made.answer?, made.left))
        };
        asked.of(numbers.any()).and_then(row)
    }

    /// The row, with tables of these sizes at first: where they are too small
    /// after all, they grow.
    fn row_from(&self, wanted: &Wanted, first: Entries, notes: Notes) -> Made {
        let mut entries = first;
        loop {
            let made = match self.lend(wanted, entries, notes) {
                Ok(made) => made,
                Err(no_room) => return self.refuse(no_room, notes),
            };
            let Err(refusal @ (Refusal::Events | Refusal::Paths)) = made.answer else {
                return made;
            };
            // Given back before more is taken: two jobs that hold what the other
            // wants would wait for ever.
            drop(made);
            match self.larger(entries, refusal, notes) {
                Some(larger) => entries = larger,
                None => return Made::refused(refusal),
            }
        }
    }

    /// What the library answers with tables of these sizes.
    fn lend(&self, wanted: &Wanted, entries: Entries, notes: Notes) -> Result<Made, NoRoom> {
        let limit = self.memory.limit();
        let no_room = NoRoom {
            needed: entries,
            limit,
        };
        // Not more than the limit, which is of this type.
        let bytes = entries.within(limit)?.bytes() as usize;
        let share = Some(self.memory.take(bytes));
        let mut tables = Tables::of(entries).ok_or(no_room)?;
        notes(Note::Now(format!("tables of {entries}")));
        let answer = wanted.row(&mut tables);
        let left = match answer {
            Ok(_) if self.left => wanted.left(&mut tables),
            _ => Vec::new(),
        };
        Ok(Made {
            answer,
            left,
            tables,
            _share: share,
        })
    }

    /// Twice the table that was too small, and a line that says so.
    fn larger(&self, before: Entries, refusal: Refusal, notes: Notes) -> Option<Entries> {
        let table = |entries: Entries| match refusal {
            Refusal::Events => (entries.events, "events"),
            _ => (entries.paths, "paths"),
        };
        let larger = before.doubled(refusal, self.memory.limit());
        let (few, what) = table(before);
        let then = match larger {
            Some(larger) => format!("trying {}", table(larger).0),
            None => format!("and no larger table within --memory {}", self.mebibytes()),
        };
        notes(Note::Tell(format!("more than {few} {what}, {then}")));
        larger
    }

    /// Refused without a call, and a line that says what is needed.
    fn refuse(&self, no_room: NoRoom, notes: Notes) -> Made {
        let needed = no_room.needed;
        let why = match needed.within(self.memory.limit()) {
            Err(_) => format!("more than --memory {}", self.mebibytes()),
            Ok(_) => "more than this machine gives".to_string(),
        };
        notes(Note::Tell(format!("the tables need {needed}: {why}")));
        Made::refused(no_room.refusal())
    }

    fn mebibytes(&self) -> usize {
        self.memory.limit() >> 20
    }
}

/// What the library refuses before it asks about the tables: of what is wanted
/// this can be the polynomial alone.
fn refused_before(wanted: &Wanted) -> Option<Refusal> {
    let Wanted::Of(..) = wanted else {
        return None;
    };
    let refusal = wanted.row(&mut Tables::with_entries(0, 0)).err()?;
    (refusal != Refusal::Events).then_some(refusal)
}

#[cfg(test)]
mod tests {
    use super::{Desk, Made};
    use crate::asked::{Asked, Wanted};
    use crate::jobs::Note;
    use crate::memory::Memory;
    use dohvrin::{AnyOrder, Entries, Refusal};
    use std::cell::RefCell;

    fn desk(mebibytes: usize) -> Desk {
        Desk {
            entries: None,
            memory: Memory::new(mebibytes << 20),
            left: false,
        }
    }

    /// What was made, and the lines that were told.
    fn told(make: impl FnOnce(&dyn Fn(Note)) -> Made) -> (Made, Vec<String>) {
        let lines = RefCell::new(Vec::new());
        let made = make(&|note| {
            if let Note::Tell(line) = note {
                lines.borrow_mut().push(line);
            }
        });
        (made, lines.into_inner())
    }

    /// 13, 17 with N = 70 and m = 6.
    fn table_1(asked: Asked, d: u64) -> Wanted {
        let order = AnyOrder::new(&[0o13, 0o17], 3, 70, 6, d);
        asked.of(order).unwrap()
    }

    #[test]
    fn a_wrong_count_is_told_and_made_good() {
        let (wanted, desk) = (table_1(Asked::Best, 12), desk(1));
        let (right, lines) = told(|notes| desk.row(&wanted, notes));
        assert!(lines.is_empty());
        let wrong = Entries {
            events: 100,
            paths: 5000,
        };
        let (made, lines) = told(|notes| desk.row_from(&wanted, wrong, notes));
        assert_eq!(made.answer, right.answer);
        let expected = [
            "more than 100 events, trying 200",
            "more than 200 events, trying 400",
            "more than 5000 paths, trying 10000",
        ];
        assert_eq!(lines, expected);
    }

    #[test]
    fn a_wrong_count_within_too_little_memory() {
        // 1 MiB takes 55,536 paths beside 4,000 events; there are more.
        let (wanted, desk) = (table_1(Asked::Best, 15), desk(1));
        let wrong = Entries {
            events: 4000,
            paths: 40_000,
        };
        let (made, lines) = told(|notes| desk.row_from(&wanted, wrong, notes));
        assert_eq!(made.answer, Err(Refusal::Paths));
        let expected = [
            "more than 40000 paths, trying 55536",
            "more than 55536 paths, and no larger table within --memory 1",
        ];
        assert_eq!(lines, expected);
    }

    #[test]
    fn what_is_needed_is_told_before_it_runs() {
        let (made, lines) = told(|notes| desk(1).row(&table_1(Asked::Best, 18), notes));
        assert_eq!(made.answer, Err(Refusal::Paths));
        let needed = "the tables need 15852 events and 1940785 paths, 31 MiB";
        assert_eq!(lines, [format!("{needed}: more than --memory 1")]);
    }

    #[test]
    fn a_quote_needs_the_paths_of_its_length() {
        let (made, lines) = told(|notes| desk(1).row(&table_1(Asked::Quote(12), 18), notes));
        assert_eq!(made.answer.map(|row| row.order().bits()), Ok(12));
        assert!(lines.is_empty(), "{lines:?}");
    }

    #[test]
    fn a_wrong_polynomial_comes_before_the_tables() {
        let (made, lines) = told(|notes| desk(1).row(&table_1(Asked::Of(0x42), 18), notes));
        assert_eq!(made.answer, Err(Refusal::Polynomial));
        assert!(lines.is_empty());
    }
}
