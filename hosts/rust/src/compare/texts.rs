//! The texts of rows and refusals, of any numbers, in any buffers.

use crate::codes::first;
use crate::listed::draw_counts;
use crate::random::Random;
use crate::tally::Tally;
use crate::{number, size};
use dohvrin::calls::{self, Answer};
use dohvrin::{AnyOrder, RowAnswer, TEXT};
use dso_ref::print::Printed;
use dso_ref::{questions, Refusal};

/// The bytes of a buffer before a call, and those around it.
const FILL: u8 = 0xA5;
const GUARD: u8 = 0x3C;
const GUARDS: usize = 64;

/// A number that no call refuses with, and that once had a text of its own.
const RETIRED: &str = "of number 15";

/// Kinds of rows by how many share the counts.
const NOBODY: &str = "that nobody was compared with";
const GREATEST: &str = "that 2^64 - 1 share";

/// Rows with a refusal in them, whose order is refused where it is one of none.
const REFUSED: &str = "of refusals";
const OF_NO_ROW: &str = "of refusals of an order that has no row";

/// What the text of a row is made of: the order, what a call told, both counts.
#[derive(Clone, Debug)]
struct Input {
    order: AnyOrder,
    row: RowAnswer,
    plain: Vec<u64>,
    undetected: Vec<u64>,
}

impl Input {
    /// The text: of a refusal, after question 10 about the room alone; else of the
    /// row.
    fn text(&self, room: usize) -> Result<String, u64> {
        match self.row.refusal {
            0 => self.row_text(room),
            _ if room < TEXT => Err(10),
            number => Ok(refusal_line(number)),
        }
    }

    /// The text of the row, after questions 2, 3, 7 and 10.
    fn row_text(&self, room: usize) -> Result<String, u64> {
        let AnyOrder { v, bits, m, d, .. } = self.order;
        let numbers = [v, bits, m, d].map(size);
        let d = size(d);
        let generators = first(&self.order.generators, self.order.n);
        let RowAnswer {
            events,
            paths,
            polynomial,
            shared,
            ..
        } = self.row;
        questions::kind(self.order.version).map_err(number)?;
        questions::generator_count(generators.len()).map_err(number)?;
        questions::threshold(d).map_err(number)?;
        questions::count_entries(self.plain.len(), d).map_err(number)?;
        questions::count_entries(self.undetected.len(), d).map_err(number)?;
        if room < TEXT {
            return Err(10);
        }
        let wide = |counts: &[u64]| {
            let of_weights = counts[..d - 1].iter();
            of_weights.map(|&count| count.into()).collect::<Vec<u128>>()
        };
        let printed = Printed {
            numbers,
            generators,
            events: size(events),
            paths: paths.into(),
            plain: &wide(&self.plain),
            undetected: &wide(&self.undetected),
            polynomial,
            shared: size(shared),
        };
        Ok(format!("{printed}\n"))
    }
}

pub fn row_text(inputs: u64) -> Tally {
    let mut random = Random::new(0x804);
    let mut tally = Tally::of_links("row_text", &[2, 3, 7, 10])
        .with_kind(NOBODY)
        .with_kind(GREATEST)
        .with_kind(REFUSED)
        .with_kind(OF_NO_ROW)
        .with_lists();
    for _ in 0..inputs {
        let i = draw(&mut random);
        let room = draw_room(&mut random);
        let expected = i.text(room);
        let refusal = expected.as_ref().err().copied().unwrap_or(0);
        if i.row.refusal == 0 {
            tally.count_lists(refusal, i.order.d, &[i.plain.len(), i.undetected.len()]);
        }
        if refusal == 0 {
            count_kinds(&mut tally, &i, room);
        }
        let (order, row) = (i.order, i.row);
        let (plain, undetected) = (&i.plain, &i.undetected);
        let raw = |text: &mut [u8]| calls::row_text(order, row, plain, undetected, text);
        let safe = |text: &mut [u8]| dohvrin::row_text(order, row, plain, undetected, text);
        let version = i.order.version;
        compare(&mut tally, version, room, expected, raw, safe, || {
            format!("{i:?}")
        });
    }
    tally
}

fn count_kinds(tally: &mut Tally, i: &Input, room: usize) {
    match i.row {
        RowAnswer { refusal: 1.., .. } => {
            tally.count_kind(REFUSED);
            if i.row_text(room).is_err() {
                tally.count_kind(OF_NO_ROW);
            }
        }
        RowAnswer { shared: 0, .. } => tally.count_kind(NOBODY),
        RowAnswer {
            shared: u64::MAX, ..
        } => tally.count_kind(GREATEST),
        _ => {}
    }
}

pub fn refusal_text(inputs: u64) -> Tally {
    let mut random = Random::new(0x8EF);
    let mut tally = Tally::new("refusal_text", &[10]).with_kind(RETIRED);
    for _ in 0..inputs {
        let no = match random.within(0, 3) {
            0 => 15,
            1 => any(&mut random),
            _ => random.within(0, 255),
        };
        let room = draw_room(&mut random);
        let expected = match room < TEXT {
            true => Err(10),
            false => Ok(refusal_line(no)),
        };
        if no == 15 && expected.is_ok() {
            tally.count_kind(RETIRED);
        }
        let raw = |text: &mut [u8]| calls::refusal_text(no, text);
        let safe = |text: &mut [u8]| dohvrin::refusal_text(no, text);
        compare(&mut tally, 0, room, expected, raw, safe, || no.to_string());
    }
    tally
}

/// The second tool prints numbers of a byte; the others are as plain.
fn refusal_line(no: u64) -> String {
    match u8::try_from(no) {
        Ok(byte) => format!("{}\n", Refusal(byte)),
        Err(_) => format!("NO {no}\n"),
    }
}

/// The call as C sees it and the safe function, each with a buffer of so many
/// bytes among guards: both give the text's size and leave the text and zeros. The
/// version is that of the order, where there is one.
fn compare(
    tally: &mut Tally,
    version: u64,
    room: usize,
    expected: Result<String, u64>,
    raw: impl Fn(&mut [u8]) -> Answer,
    safe: impl Fn(&mut [u8]) -> Result<usize, dohvrin::Refusal>,
    tell: impl FnOnce() -> String,
) {
    let refusal = expected.as_ref().err().copied().unwrap_or(0);
    let length = expected.as_ref().map_or(0, String::len);
    let answer = Answer {
        refusal,
        value: length as u64,
        ..Answer::default()
    };
    let before = 1 + room % GUARDS;
    let mut bytes = vec![GUARD; before + room + GUARDS];
    bytes[before..before + room].fill(FILL);
    let mut left = bytes.clone();
    if let Ok(text) = &expected {
        left[before..before + room].fill(0);
        left[before..before + length].copy_from_slice(text.as_bytes());
    }
    let mut again = bytes.clone();
    let got = raw(&mut bytes[before..before + room]);
    let safe = safe(&mut again[before..before + room]).map_err(|no| no.number());
    let same = got == answer
        && bytes == left
        && safe == expected.as_ref().map(String::len).map_err(|no| *no)
        && again == left;
    tally.count_of(version, refusal, same, || {
        let text = String::from_utf8_lossy(&bytes[before..before + length.min(room)]);
        let input = tell();
        format!("{input} room {room}: library {got:?} {safe:?} {text:?}, second tool {expected:?}")
    });
}

fn draw(random: &mut Random) -> Input {
    let d = match random.within(0, 15) {
        0 => random.pick(&[0, 65, 66, 128]),
        1 => random.huge(5),
        2 => 64,
        3 => 1,
        _ => random.within(1, 64),
    };
    let n = match random.within(0, 15) {
        0 => random.within(0, 7),
        1 => random.huge(2),
        _ => random.within(2, 4),
    };
    let version = match random.within(0, 15) {
        0 => random.wrong_version(),
        _ => random.version(),
    };
    let number = match random.within(0, 15) {
        0 => |_: &mut Random| u64::MAX,
        1 => |_: &mut Random| 0,
        _ => any,
    };
    let mut generators = [0; 4];
    generators.fill_with(|| number(random));
    let counts = |random: &mut Random| {
        let entries = draw_counts(random, d, 32);
        (0..entries).map(|_| number(random)).collect()
    };
    let (plain, undetected) = (counts(random), counts(random));
    let refusal = match random.within(0, 7) {
        0 => random.within(1, 16),
        1 => any(random),
        _ => 0,
    };
    Input {
        order: AnyOrder {
            version,
            n,
            v: number(random),
            bits: number(random),
            m: number(random),
            d,
            generators,
        },
        row: RowAnswer {
            refusal,
            events: number(random),
            paths: number(random),
            polynomial: number(random),
            shared: number(random),
        },
        plain,
        undetected,
    }
}

/// A number of any size, at times the least, the greatest, or beside a power of
/// 8, 10 or 16.
fn any(random: &mut Random) -> u64 {
    match random.within(0, 15) {
        0 => 0,
        1 => u64::MAX,
        2 => 10u64.pow(random.within(0, 19) as u32) - random.within(0, 1),
        3 => (1 << random.within(0, 63)) - random.within(0, 1),
        _ => random.next() >> random.within(0, 63),
    }
}

/// The least size, one short, none, larger, or any.
fn draw_room(random: &mut Random) -> usize {
    match random.within(0, 15) {
        0 => TEXT - 1,
        1 => random.index(TEXT),
        2 => 0,
        3 | 4 => TEXT + random.index(100),
        5 => 2 * TEXT,
        _ => TEXT,
    }
}
