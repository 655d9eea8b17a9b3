//! Which nonzero words weigh 0: none of a code that passes question 16, and on a
//! terminated link none of any code.

mod common;

use common::Random;
use dso_ref::link::{self, Code, Kind};
use dso_ref::table::Table;
use dso_ref::{paths, poly, questions};
use std::ops::RangeInclusive;

/// The memories whose codes are all taken, and the greatest length of their words.
const MEMORIES: RangeInclusive<usize> = 1..=3;
const LONGEST: usize = 8;

/// All lists of n nonzero generators of a memory.
fn lists(v: usize, n: usize) -> Vec<Vec<u64>> {
    (0..n).fold(vec![vec![]], |lists, _| {
        let longer = |list: &Vec<u64>| (1..2 << v).map(|g| [&list[..], &[g]].concat()).collect();
        lists.iter().flat_map::<Vec<_>, _>(longer).collect()
    })
}

/// Whether some nonzero word of the code weighs 0: all are weighed.
fn some_weighs_0(code: Code) -> bool {
    (1..1 << code.length).any(|word| link::ones(code, word) == 0)
}

/// Whether a polynomial other than 1 divides every generator and x^N+1.
fn shared_with_the_length(code: Code) -> bool {
    let whole = 1 << code.length | 1;
    (2..2 << code.memory).any(|p| {
        let of_all = code.generators.iter().all(|&g| poly::divides(p, g.into()));
        of_all && poly::divides(p, whole)
    })
}

/// The lengths at which some nonzero word of a tail-biting code weighs 0.
fn lengths_with_zeros(v: usize, generators: &[u64]) -> Vec<usize> {
    let zeros = |&length: &usize| {
        let code = Code::of(Kind::TailBiting, v, length, generators);
        let zeros = some_weighs_0(code);
        assert_eq!(zeros, shared_with_the_length(code), "{code:?}");
        zeros
    };
    (v..=LONGEST).filter(zeros).collect()
}

#[test]
fn question_16_passes_the_codes_that_have_no_such_word_at_any_length() {
    let (mut passed, mut refused) = (0, 0);
    for (v, n) in MEMORIES.flat_map(|v| [(v, 2), (v, 3)]) {
        let mut codes = lists(v, n);
        codes.retain(|generators| questions::generator_bits(v, generators).is_ok());
        for generators in codes {
            let passes = questions::common_divisor(v, &generators).is_ok();
            let lengths = lengths_with_zeros(v, &generators);
            assert_eq!(lengths.is_empty(), passes, "{generators:?}: {lengths:?}");
            *if passes { &mut passed } else { &mut refused } += 1;
        }
    }
    assert!(passed > 1000 && refused > 100, "{passed} {refused}");
}

#[test]
fn no_terminated_word_under_any_generators() {
    for v in MEMORIES {
        // Those, too, that questions 9 and 16 refuse.
        for generators in lists(v, 2) {
            for length in v..=LONGEST {
                let code = Code::of(Kind::Terminated, v, length, &generators);
                assert!(!some_weighs_0(code), "{code:?}");
            }
        }
    }
}

#[test]
fn word_3_of_generators_3_and_3() {
    let weight = |kind| link::ones(Code::of(kind, 1, 2, &[3, 3]), 3);
    // x+1 times x+1 is x^2+1, which is 0 on a tail-biting link of 2 bits.
    assert_eq!(weight(Kind::TailBiting), 0);
    assert_eq!(weight(Kind::Terminated), 4);
}

/// The nonzero words that weigh 0, by walks.
fn walked(code: Code) -> Vec<(u32, u128)> {
    paths::list(&Table::of(code, 1), 1)
}

#[test]
fn walks_of_long_codes() {
    let mut random = Random(9);
    for _ in 0..200 {
        let order = random.order(8, 128, 12, 1);
        assert_eq!(walked(order.code()), [], "{order}");
        // With x+1 in every generator, which divides every x^N+1.
        let generators: Vec<u64> = order.generators().iter().map(|g| g ^ g << 1).collect();
        let (v, length) = (order.memory() + 1, order.length());
        if v <= 8.min(length) {
            let code = |kind| Code::of(kind, v, length, &generators);
            let ones = !0 >> (128 - length);
            assert_eq!(walked(code(Kind::TailBiting)), [(0, ones)], "{order}");
            assert_eq!(walked(code(Kind::Terminated)), [], "{order}");
        }
    }
}
