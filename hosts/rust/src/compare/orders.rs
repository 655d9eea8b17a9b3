//! Whole orders by their records, as `dso` takes them: the record is read, the
//! search is lent what `dso` lends, and the text of the row or the refusal is
//! compared with what the second tool prints for the same bytes.

use crate::number;
use crate::random::Random;
use crate::records;
use crate::searched::Asked;
use crate::tally::Tally;
use dohvrin::{LengthSet, Quote, Tables};
use dso_ref::row::row;
use dso_ref::{Failure, Lent, Method, Order, Refusal, Row};

/// The greatest length at which the second tool takes all words too.
const SHORT: usize = 10;

/// The kind of rows that d = 1 gives.
const WITHOUT_COUNTS: &str = "without counts";

pub fn orders(inputs: u64) -> Tally {
    let mut random = Random::new(0x08DE85);
    let asked = &[1, 2, 3, 4, 5, 6, 7, 8, 9, 16, 13, 14];
    let mut tally = Tally::of_links("orders by record", asked)
        .with_kind(WITHOUT_COUNTS)
        .with_shared();
    // The same for every order in turn: they hold what the last one left.
    let mut tables = lend(Lent::default());
    for _ in 0..inputs {
        let bytes = draw(&mut random);
        let (bytes, size) = records::damaged(&mut random, bytes);
        let bytes = &bytes[..size];
        let row = second(bytes);
        let version = records::version_in(bytes);
        if let Ok(row) = &row {
            count_kinds(&mut tally, version, row);
        }
        let (refusal, expected) = match row {
            Ok(row) => (0, format!("{row}\n")),
            Err(no) => (number(no), format!("{no}\n")),
        };
        let text = answer(&mut tables, bytes, Asked::Best);
        tally.count_of(version, refusal, text == expected, || {
            let shown = &bytes[..size.min(40)];
            format!("{shown:02X?} of {size}: library {text:?}, second tool {expected:?}")
        });
    }
    tally
}

fn count_kinds(tally: &mut Tally, version: u64, row: &Row) {
    if row.plain.is_empty() {
        tally.count_kind(WITHOUT_COUNTS);
    }
    tally.count_shared(version, row.shared as u64);
}

/// What the second tool answers.
fn second(bytes: &[u8]) -> Result<Row, Refusal> {
    let answer = Order::from_record(bytes)
        .map_err(Failure::Refused)
        .and_then(|order| {
            let method = match order.length() {
                0..=SHORT => Method::Both,
                _ => Method::Table,
            };
            row(&order, Lent::default(), None, method)
        });
    answer.map_err(|failure| match failure {
        Failure::Refused(no) => no,
        _ => panic!("{bytes:02X?}: {failure:?}"),
    })
}

/// Tables of these sizes.
pub fn lend(lent: Lent) -> Tables {
    Tables::with_entries(lent.events, lent.paths)
}

/// The text of the row of a record that is asked for, or of the refusal.
pub fn answer(tables: &mut Tables, bytes: &[u8], asked: Asked) -> String {
    let row = dohvrin::Order::from_record(bytes).and_then(|order| match asked {
        Asked::Best => tables.search(&order),
        Asked::Of(p) => tables.count(&order, p),
        Asked::Quote(bits) => Quote::of(order.any(), bits).and_then(|quote| tables.quote(&quote)),
        Asked::Set(list) => {
            let set = LengthSet::of(order.any(), list.all());
            set.and_then(|set| tables.search_set(&set))
        }
    });
    match row {
        Ok(row) => row.text(),
        Err(refusal) => refusal.text(),
    }
}

/// A right record, most often of an order that fits into the tables and that
/// the second tool answers soon.
fn draw(random: &mut Random) -> Vec<u8> {
    let mut up_to = |few: u64, many: u64, seldom: u64| match random.within(1, seldom) {
        1 => many,
        _ => few,
    };
    let (v, length) = (up_to(4, 8, 32), up_to(16, 128, 16));
    let (m, d) = (up_to(5, 12, 32), up_to(12, 64, 8));
    let v = random.within(1, v);
    let length = random.within(v.max(2), length.max(v + 1));
    let m = random.within(1, m.min(length - 1));
    let d = random.within(1, d);
    records::record(random, [v, length, m, d])
}
