//! The stored cases, for `run-rows` and for hosts that run them themselves.

pub mod cases;
