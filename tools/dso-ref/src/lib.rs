//! The second design tool: what document 01 defines, by methods that share
//! nothing with error events joined to chains.
//!
//! Notation: a polynomial over GF(2) is a number whose bit j is the
//! coefficient of x^j. Generators are written in octal, check polynomials in
//! hexadecimal with all m+1 bits: 0x43 is x^6+x+1. A word is a `u128`.
//!
//! Counts come from two methods. `words` takes all words one by one;
//! `table` moves a table over (state, remainder, weight) through the steps of
//! the trellis. A link's kind, tail-biting or terminated, is part of its code
//! (`link::Code`), and all methods take their steps and start states from that. Error events are walked for their own sake only: no path
//! and no count is made from them.

pub mod events;
mod layer;
pub mod link;
pub mod listing;
pub mod order;
pub mod paths;
pub mod poly;
pub mod print;
pub mod questions;
pub mod quote;
pub mod row;
pub mod search;
pub mod set;
pub mod table;
pub mod trellis;
pub mod weights;
pub mod words;

pub use events::Event;
pub use order::Order;
pub use questions::Refusal;
pub use row::{Failure, Lent, Method, Row};
