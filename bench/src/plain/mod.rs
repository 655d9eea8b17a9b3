//! The library's methods as one would write them in Rust: words of 128 bits,
//! the standard library's vectors, and its sort where there are few words. The
//! code, with the kind of its link, is the second tool's, and so are its steps
//! and the states that have events.

pub mod events;
pub mod paths;
pub mod search;
pub mod sort;
pub mod words;
