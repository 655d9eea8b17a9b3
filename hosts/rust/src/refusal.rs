//! Why a call has no result: the first of document 01's questions that says no.

use crate::RowAnswer;
use std::error::Error;
use std::fmt;

/// A refusal, named after what its question asks about; `meaning` says it in a
/// line.
#[derive(Clone, Copy, Debug, PartialEq, Eq)]
pub enum Refusal {
    /// Question 1.
    RecordLength,
    /// Question 2: the kind of link, by the version of its record.
    Version,
    /// Question 3.
    GeneratorCount,
    /// Question 4.
    Memory,
    /// Question 5.
    WordLength,
    /// Question 6.
    CheckDegree,
    /// Question 7.
    Threshold,
    /// Question 8.
    Generator,
    /// Question 9.
    GeneratorEnds,
    /// Question 10.
    Room,
    /// Question 11.
    Polynomial,
    /// Question 12.
    Word,
    /// Question 13.
    Events,
    /// Question 14.
    Paths,
    /// Question 16, which is asked after 9. No question has number 15.
    SharedFactor,
    /// Question 17, which is asked after 4.
    LengthList,
}

/// All of them with the numbers of their questions.
const ALL: [(u64, Refusal); 16] = [
    (1, Refusal::RecordLength),
    (2, Refusal::Version),
    (3, Refusal::GeneratorCount),
    (4, Refusal::Memory),
    (5, Refusal::WordLength),
    (6, Refusal::CheckDegree),
    (7, Refusal::Threshold),
    (8, Refusal::Generator),
    (9, Refusal::GeneratorEnds),
    (10, Refusal::Room),
    (11, Refusal::Polynomial),
    (12, Refusal::Word),
    (13, Refusal::Events),
    (14, Refusal::Paths),
    (16, Refusal::SharedFactor),
    (17, Refusal::LengthList),
];

impl Refusal {
    /// The refusal of a number: 1 to 14, 16 or 17.
    pub fn of(number: u64) -> Option<Refusal> {
        let found = ALL.iter().find(|(listed, _)| *listed == number);
        found.map(|(_, refusal)| *refusal)
    }

    /// The number of its question.
    pub fn number(self) -> u64 {
        let found = ALL.iter().find(|(_, listed)| *listed == self);
        found.expect("all are listed").0
    }

    /// What it means, in one line.
    pub fn meaning(self) -> &'static str {
        match self {
            Refusal::RecordLength => "the record's length bytes do not count the bytes after them",
            Refusal::Version => {
                "the version is neither 1, tail-biting, nor 2, terminated; a quote wants 1"
            }
            Refusal::GeneratorCount => {
                "the generators are not 2 to 4, or the record's length is not 6 + 2n"
            }
            Refusal::Memory => "the memory v is not from 1 to 8",
            Refusal::WordLength => {
                "the length N, or one of a set, is not from v to 128, or that of a quote not from v to N"
            }
            Refusal::CheckDegree => {
                "the check degree m is not from 1 to 12 and below N, that of a quote and all of a set"
            }
            Refusal::Threshold => "the threshold d is not from 1 to 64",
            Refusal::Generator => "a generator is zero, or not below 2^(v+1)",
            Refusal::GeneratorEnds => "no generator has bit v, or none has bit 0",
            Refusal::Room => "a lent list, work area or output is too short",
            Refusal::Polynomial => "the polynomial has not degree m and constant term 1",
            Refusal::Word => "the word or message has too many bits",
            Refusal::Events => "there are more error events than the event table takes",
            Refusal::Paths => "there are more paths than the path table takes",
            Refusal::SharedFactor => "the generators share a factor",
            Refusal::LengthList => "the lengths of a set are not 1 to 8, each below the one before",
        }
    }
}

/// An answer's refusal as an error, where there is one. A number that no
/// question has would come of a library that is not this host's: it is no
/// acceptance.
pub(crate) fn accepted(refusal: u64) -> Result<(), Refusal> {
    match refusal {
        0 => Ok(()),
        number => Err(Refusal::of(number).expect("the library refuses by a question")),
    }
}

impl RowAnswer {
    /// The answer, which has no refusal, or the refusal as an error.
    pub(crate) fn accepted(self) -> Result<RowAnswer, Refusal> {
        accepted(self.refusal).map(|()| self)
    }
}

impl fmt::Display for Refusal {
    fn fmt(&self, f: &mut fmt::Formatter) -> fmt::Result {
        write!(
            f,
            "refused by question {}: {}",
            self.number(),
            self.meaning()
        )
    }
}

impl Error for Refusal {}

#[cfg(test)]
mod tests {
    use super::{accepted, Refusal};

    #[test]
    fn numbers_and_refusals_belong_together() {
        for number in (1..=14).chain([16, 17]) {
            let refusal = Refusal::of(number).unwrap();
            assert_eq!(refusal.number(), number);
            assert!(!refusal.meaning().contains('\n'));
        }
        for number in [0, 15, 18, u64::MAX] {
            assert_eq!(Refusal::of(number), None);
        }
        assert_eq!(accepted(0), Ok(()));
        assert_eq!(accepted(16), Err(Refusal::SharedFactor));
    }

    #[test]
    #[should_panic(expected = "refuses by a question")]
    fn an_unknown_number_is_no_acceptance() {
        let _ = accepted(18);
    }

    #[test]
    #[should_panic(expected = "refuses by a question")]
    fn the_number_that_no_question_has_any_more_is_no_acceptance() {
        let _ = accepted(15);
    }

    #[test]
    fn some_by_name() {
        assert_eq!(Refusal::RecordLength.number(), 1);
        assert_eq!(Refusal::Room.number(), 10);
        assert_eq!(Refusal::Paths.number(), 14);
        assert_eq!(Refusal::SharedFactor.number(), 16);
        assert_eq!(Refusal::LengthList.number(), 17);
    }
}
