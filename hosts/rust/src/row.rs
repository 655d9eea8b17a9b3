//! A row, and the text of a row or a refusal.

use crate::{refusal_text, row_text, Order, Refusal, RowAnswer, TEXT};

/// What an order's row says. Only the tables make one.
///
/// ```
/// use dohvrin::{Order, Tables};
///
/// let order = Order::new(&[1, 3], 1, 3, 2, 4).unwrap();
/// let row = Tables::with_entries(4, 7).search(&order).unwrap();
/// assert_eq!(row.text().lines().last(), Some("CRC 0x5 1"));
/// assert_eq!(row.counts().collect::<Vec<_>>(), [(1, 0, 0), (2, 0, 0), (3, 4, 0)]);
/// ```
#[derive(Clone, Debug, PartialEq, Eq)]
pub struct Row {
    pub(crate) order: Order,
    pub(crate) answer: RowAnswer,
    pub(crate) plain: Vec<u64>,
    pub(crate) undetected: Vec<u64>,
}

impl Row {
    /// The order.
    pub fn order(&self) -> &Order {
        &self.order
    }

    /// How many events were listed.
    pub fn events(&self) -> usize {
        // Not more than the table takes.
        self.answer.events as usize
    }

    /// How many paths were listed.
    pub fn paths(&self) -> usize {
        // Not more than the table takes.
        self.answer.paths as usize
    }

    /// The best polynomial, or the one that was given.
    pub fn polynomial(&self) -> u64 {
        self.answer.polynomial
    }

    /// How many polynomials have its counts, it among them; of a set, how many of
    /// those left. 0: the polynomial was given, and nobody was compared with it.
    pub fn shared(&self) -> u64 {
        self.answer.shared
    }

    /// How many paths have each weight from 1 to d - 1: entry w - 1 is weight w.
    pub fn plain(&self) -> &[u64] {
        &self.plain
    }

    /// How many of them the polynomial divides: entry w - 1 is weight w.
    pub fn undetected(&self) -> &[u64] {
        &self.undetected
    }

    /// Each weight from 1 to d - 1, and its plain and undetected count.
    pub fn counts(&self) -> impl Iterator<Item = (u64, u64, u64)> + '_ {
        let both = self.plain.iter().zip(&self.undetected);
        (1..)
            .zip(both)
            .map(|(w, (&plain, &undetected))| (w, plain, undetected))
    }

    /// The lines that `dso` prints.
    pub fn text(&self) -> String {
        let (order, answer) = (self.order.any(), self.answer);
        let (plain, undetected) = (&self.plain, &self.undetected);
        written(|buffer| row_text(order, answer, plain, undetected, buffer))
    }
}

impl Refusal {
    /// The line that `dso` prints.
    pub fn text(self) -> String {
        written(|buffer| refusal_text(self.number(), buffer))
    }
}

/// What a call writes into a buffer that takes any text.
fn written(write: impl FnOnce(&mut [u8]) -> Result<usize, Refusal>) -> String {
    let mut buffer = vec![0; TEXT];
    let size = write(&mut buffer).expect("an accepted order, and room for any text");
    buffer.truncate(size);
    String::from_utf8(buffer).expect("the text is ASCII")
}

#[cfg(test)]
mod tests {
    use crate::{AnyOrder, Link, Order, Refusal, Tables};

    #[test]
    fn the_example_of_document_01() {
        let order = Order::new(&[1, 3], 1, 4, 2, 6).unwrap();
        let row = Tables::with_entries(512, 2048).search(&order).unwrap();
        let lines = [
            "ORDER 2 1 4 2 6 1 3",
            "EVENTS 5",
            "PATHS 13",
            "A 1 0 0",
            "A 2 0 0",
            "A 3 4 0",
            "A 4 5 1",
            "A 5 4 0",
            "CRC 0x5 1",
        ];
        assert_eq!(row.text(), lines.join("\n") + "\n");
        let counted = row
            .counts()
            .map(|(w, plain, unseen)| format!("A {w} {plain} {unseen}"));
        assert_eq!(counted.collect::<Vec<_>>(), lines[3..8]);
    }

    #[test]
    fn no_counts_below_weight_1() {
        for link in Link::ALL {
            let any = AnyOrder::new(&[1, 3], 1, 4, 1, 1).with_link(link);
            let row = Tables::with_entries(1, 0).search(&Order::of(any).unwrap());
            let row = row.unwrap();
            assert_eq!(
                row.text(),
                "ORDER 2 1 4 1 1 1 3\nEVENTS 1\nPATHS 0\nCRC 0x3 1\n"
            );
            assert_eq!((row.plain(), row.undetected()), (&[][..], &[][..]));
            assert_eq!(row.counts().count(), 0);
        }
    }

    #[test]
    fn refusals() {
        assert_eq!(Refusal::Polynomial.text(), "NO 11\n");
        assert_eq!(Refusal::SharedFactor.text(), "NO 16\n");
    }
}
