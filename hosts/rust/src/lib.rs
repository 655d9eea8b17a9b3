//! The library for Rust programs. include/dohvrin.h says what each call takes
//! and leaves; here words are `u128`, refusals are errors, and nothing that a
//! caller can pass is undefined.
//!
//! Most programs want `Order`, `Tables` and `Row`. An `Order` is one that the
//! library accepts, `Tables` own what it writes into, and neither can be wrong:
//!
//! ```
//! use dohvrin::{Order, Tables};
//!
//! let order = Order::new(&[0o13, 0o17], 3, 20, 6, 12).unwrap();
//! let mut tables = Tables::for_order(&order, 1 << 20).unwrap();
//! println!("{}", tables.search(&order).unwrap().text());
//! ```
//!
//! A `Quote` is an order and a shorter length, whose row `Tables::quote` makes from
//! the order's events. A `LengthSet` is an order for several lengths, to which
//! `Tables::search_set` gives one polynomial.
//!
//! The functions below them take numbers and slices, as the calls do, and an
//! `AnyOrder` by value, which may be wrong; a call that does not ask about m or d
//! takes any.
//!
//! Notation: a polynomial over GF(2) is a number whose bit j is the
//! coefficient of x^j. `bits` is N, the bits of a word; v is the memory. An order
//! says the kind of its link by the version of its record; `AnyOrder::new` and
//! `Order::new` make tail-biting ones, `with_link` the others (`Link`).
//!
//! ```
//! use dohvrin::{append, strip, test, weigh, AnyOrder, Refusal, Stripped};
//!
//! let order = AnyOrder::new(&[0o13, 0o17], 3, 70, 6, 18);
//! assert_eq!(weigh(order, 1), Ok(7));
//! let word = append(70, 6, 0x43, 5).unwrap();
//! assert_eq!(strip(70, 6, 0x43, word), Ok(Stripped::Message(5)));
//! assert_eq!(test(70, 6, 0x40, word), Err(Refusal::Polynomial));
//! ```
//!
//! Error events go into a table that the caller lends, with a work area:
//!
//! ```
//! use dohvrin::{collect, AnyOrder, Event, Refusal, WORK};
//!
//! let order = AnyOrder::new(&[1, 3], 1, 3, 2, 5);
//! let (mut table, mut work) = ([Event::default(); 6], vec![0; WORK]);
//! assert_eq!(collect(order, &mut table, &mut work).unwrap().events, 4);
//! let listed = table.map(|e| (e.state, e.length, e.weight, e.input()));
//! assert_eq!(listed[..4], [(0, 1, 0, 0), (0, 2, 3, 1), (0, 3, 4, 3), (1, 1, 1, 1)]);
//! assert_eq!(listed[4..], [(0, 0, 0, 0); 2]);
//! assert_eq!(collect(order, &mut table[..3], &mut work), Err(Refusal::Events));
//! ```
//!
//! Paths go into one more table, two numbers a word, and are counted by weight.
//! No word but zero weighs 0: a list of counts begins at weight 1, and weight w is
//! its entry w - 1. `part` finds the words of one weight again:
//!
//! ```
//! use dohvrin::{list, part, words, AnyOrder, Event, Refusal, WORK};
//!
//! let order = AnyOrder::new(&[1, 3], 1, 4, 2, 7);
//! let (mut events, mut work) = ([Event::default(); 5], vec![0; WORK]);
//! let (mut paths, mut counts) = ([0; 30], [0; 6]);
//! let row = list(order, &mut events, &mut paths, &mut counts, &mut work).unwrap();
//! assert_eq!((row.events, row.paths), (5, 15));
//! assert_eq!(counts, [0, 0, 4, 5, 4, 2]);
//! let heaviest: Vec<u128> = words(part(&paths, &counts, 6).unwrap()).collect();
//! assert_eq!(heaviest, [5, 10]);
//! assert_eq!(part(&paths, &counts, 7), Err(Refusal::Room));
//! assert_eq!(part(&paths, &counts, 0), Err(Refusal::Room));
//! ```
//!
//! The search takes the same tables and one more list of counts, those of the
//! words that pass the check unseen, and `row_text` writes what it answered. Of
//! several polynomials with the best counts it finds the smallest number, and
//! `shared` says how many they are:
//!
//! ```
//! use dohvrin::{row_text, search, AnyOrder, Event, Lent, TEXT, WORK};
//!
//! let order = AnyOrder::new(&[1, 3], 1, 4, 2, 6);
//! let (mut events, mut paths, mut work) = ([Event::default(); 5], [0; 30], vec![0; WORK]);
//! let (mut plain, mut undetected, mut text) = ([0; 6], [0; 6], [0; TEXT]);
//! let lent = Lent {
//!     events: &mut events,
//!     paths: &mut paths,
//!     plain: &mut plain,
//!     undetected: &mut undetected,
//!     work: &mut work,
//! };
//! let row = search(order, lent).unwrap();
//! assert_eq!((row.polynomial, row.shared), (0x5, 1));
//! assert_eq!(undetected, [0, 0, 0, 1, 0, 0]);
//! let size = row_text(order, row, &plain, &undetected, &mut text).unwrap();
//! assert!(text[..size].starts_with(b"ORDER 2 1 4 2 6 1 3\nEVENTS 5\nPATHS 13\nA 1 0 0\n"));
//! assert!(text[..size].ends_with(b"A 5 4 0\nCRC 0x5 1\n"));
//! ```

pub mod calls;
mod counting;
mod entries;
mod link;
mod listing;
mod order;
mod quote;
mod refusal;
mod row;
mod search;
mod set;
mod tables;
mod word;

pub use calls::{AnyOrder, Event, RowAnswer};
pub use entries::{Entries, NoRoom};
pub use link::Link;
pub use listing::{collect, list, part, words, COUNTS, WORK};
pub use order::Order;
pub use quote::Quote;
pub use refusal::Refusal;
pub use row::Row;
pub use search::{count, quote, refusal_text, row_text, search, search_set, Lent, TEXT};
pub use set::{LengthSet, LENGTHS};
pub use tables::Tables;
pub use word::{append, encode, halves, joined, strip, test, weigh, Stripped};
