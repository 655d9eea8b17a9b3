//! `dso-row` as it is run: what it prints, and its exit status.

mod arguments;
mod checklist;
mod files;
mod lengths;
mod older;
mod quote;
mod rows;
mod run;
mod terminated;
