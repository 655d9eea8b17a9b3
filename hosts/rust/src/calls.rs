//! Every call of the archive, as include/dohvrin.h declares it, behind a safe
//! function that takes slices and hands back the whole answer. The table at the
//! end has a line for each, of which both its declaration and its function are
//! made. How a call is called is written in this file alone, and all unsafe code
//! is here.
//!
//! SAFETY, of every call: it takes any numbers. Pointers and counts are those
//! of slices; what is written is borrowed alone, so that it overlaps nothing
//! else and no one else has it meanwhile.

use crate::halves;

/// `struct dohvrin_answer`.
#[repr(C)]
#[derive(Clone, Copy, Debug, Default, PartialEq, Eq)]
pub struct Answer {
    pub refusal: u64,
    pub value: u64,
    pub low: u64,
    pub high: u64,
}

/// `struct dohvrin_order`: an order as the calls take it, right or wrong.
#[repr(C)]
#[derive(Clone, Copy, Debug, Default, PartialEq, Eq)]
pub struct AnyOrder {
    /// The version of its record: 1 for a tail-biting link, 2 for a terminated
    /// one.
    pub version: u64,
    pub n: u64,
    pub v: u64,
    pub bits: u64,
    pub m: u64,
    pub d: u64,
    /// Those past the n-th are not looked at.
    pub generators: [u64; 4],
}

/// `struct dohvrin_order_answer`.
#[repr(C)]
#[derive(Clone, Copy, Debug, Default, PartialEq, Eq)]
pub struct OrderAnswer {
    pub refusal: u64,
    pub order: AnyOrder,
}

/// `struct dohvrin_event`.
#[repr(C)]
#[derive(Clone, Copy, Debug, Default, PartialEq, Eq)]
pub struct Event {
    pub state: u64,
    pub length: u64,
    pub weight: u64,
    pub low: u64,
    pub high: u64,
}

/// `struct dohvrin_row`: what a row says beside its order and the counts. What a
/// call does not tell is 0.
#[repr(C)]
#[derive(Clone, Copy, Debug, Default, PartialEq, Eq)]
pub struct RowAnswer {
    /// The number of the question that said no, or 0.
    pub refusal: u64,
    /// How many events, for the length of the row.
    pub events: u64,
    /// How many paths.
    pub paths: u64,
    /// The best polynomial, or the one that was given.
    pub polynomial: u64,
    /// How many polynomials have its counts, it among them: 1 or more where it
    /// is the best; of a set, how many of those left. 0: nobody was compared
    /// with it.
    pub shared: u64,
}

/// `struct dohvrin_part`.
#[repr(C)]
#[derive(Clone, Copy, Debug, Default, PartialEq, Eq)]
pub struct Part {
    pub refusal: u64,
    pub start: u64,
    pub numbers: u64,
}

const _: () = assert!(std::mem::size_of::<Answer>() == 32);
const _: () = assert!(std::mem::size_of::<AnyOrder>() == 80);
const _: () = assert!(std::mem::size_of::<OrderAnswer>() == 88);
const _: () = assert!(std::mem::size_of::<Event>() == 40);
const _: () = assert!(std::mem::size_of::<RowAnswer>() == 40);
const _: () = assert!(std::mem::size_of::<Part>() == 24);

/// Of each line `dohvrin_call = function(parameters) -> answer;` the function.
macro_rules! calls {
    ($($call:ident = $function:ident($($parameters:tt)*) -> $answer:ident;)+) => {
        $(call! { [$call $function $answer] [] [] [] $($parameters)*, })+
    };
}

/// One function, with the declaration in it. Each parameter in turn is added to
/// what the function takes, what is declared, and what is passed: a word as its
/// halves, a slice as pointer and count, any other as it is.
macro_rules! call {
    ([$call:ident $function:ident $answer:ident] [$($takes:tt)*] [$($declared:tt)*] [$($passed:tt)*]) => {
        pub fn $function($($takes)*) -> $answer {
            extern "C" {
                fn $call($($declared)*) -> $answer;
            }
            unsafe { $call($($passed)*) }
        }
    };
    ($call:tt [$($takes:tt)*] [$($declared:tt)*] [$($passed:tt)*] $name:ident: u128, $($rest:tt)*) => {
        call! {
            $call
            [$($takes)* $name: u128,]
            [$($declared)* low: u64, high: u64,]
            [$($passed)* halves($name).0, halves($name).1,]
            $($rest)*
        }
    };
    ($call:tt [$($takes:tt)*] [$($declared:tt)*] [$($passed:tt)*] $name:ident: &[$entry:ty], $($rest:tt)*) => {
        call! {
            $call
            [$($takes)* $name: &[$entry],]
            [$($declared)* $name: *const $entry, _: usize,]
            [$($passed)* $name.as_ptr(), $name.len(),]
            $($rest)*
        }
    };
    ($call:tt [$($takes:tt)*] [$($declared:tt)*] [$($passed:tt)*] $name:ident: &mut [$entry:ty], $($rest:tt)*) => {
        call! {
            $call
            [$($takes)* $name: &mut [$entry],]
            [$($declared)* $name: *mut $entry, _: usize,]
            [$($passed)* $name.as_mut_ptr(), $name.len(),]
            $($rest)*
        }
    };
    ($call:tt [$($takes:tt)*] [$($declared:tt)*] [$($passed:tt)*] $name:ident: $value:ty, $($rest:tt)*) => {
        call! {
            $call
            [$($takes)* $name: $value,]
            [$($declared)* $name: $value,]
            [$($passed)* $name,]
            $($rest)*
        }
    };
}

calls! {
    dohvrin_append = append(bits: u64, m: u64, polynomial: u64, message: u128) -> Answer;
    dohvrin_strip = strip(bits: u64, m: u64, polynomial: u64, word: u128) -> Answer;
    dohvrin_test = test(bits: u64, m: u64, polynomial: u64, word: u128) -> Answer;
    dohvrin_weigh = weigh(order: AnyOrder, word: u128) -> Answer;
    dohvrin_encode = encode(order: AnyOrder, word: u128, output: &mut [u8]) -> u64;
    dohvrin_collect = collect(order: AnyOrder, events: &mut [Event], work: &mut [u64]) -> RowAnswer;
    dohvrin_list = list(order: AnyOrder, events: &mut [Event], paths: &mut [u64], plain: &mut [u64], work: &mut [u64]) -> RowAnswer;
    dohvrin_search = search(order: AnyOrder, events: &mut [Event], paths: &mut [u64], plain: &mut [u64], undetected: &mut [u64], work: &mut [u64]) -> RowAnswer;
    dohvrin_quote = quote(order: AnyOrder, bits: u64, events: &mut [Event], paths: &mut [u64], plain: &mut [u64], undetected: &mut [u64], work: &mut [u64]) -> RowAnswer;
    dohvrin_search_set = search_set(order: AnyOrder, lengths: &[u64], events: &mut [Event], paths: &mut [u64], plain: &mut [u64], undetected: &mut [u64], work: &mut [u64]) -> RowAnswer;
    dohvrin_count = count(order: AnyOrder, polynomial: u64, events: &mut [Event], paths: &mut [u64], plain: &mut [u64], undetected: &mut [u64], work: &mut [u64]) -> RowAnswer;
    dohvrin_part = part(table: &[u64], counts: &[u64], w: u64) -> Part;
    dohvrin_row_text = row_text(order: AnyOrder, row: RowAnswer, plain: &[u64], undetected: &[u64], text: &mut [u8]) -> Answer;
    dohvrin_refusal_text = refusal_text(number: u64, text: &mut [u8]) -> Answer;
    dohvrin_read_order = read_order(bytes: &[u8]) -> OrderAnswer;
}
