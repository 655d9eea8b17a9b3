//! What one family of calls has shown: how many inputs, what became of them.

use crate::size;
use dohvrin::Link;

/// Failures that are printed in full.
const SHOWN: u64 = 10;

/// Questions that refuse before the kind of link is known.
const WITHOUT_KIND: [u64; 2] = [1, 2];

/// Kinds of calls by their lists of counts.
const EMPTY_LISTS: &str = "with empty lists";
const EMPTY_LIST: &str = "with an empty list";
const SHORT_LIST: &str = "with a list one short";

/// Kinds of rows whose counts several candidates share.
const SHARED: [(Link, &str); 2] = [
    (Link::TailBiting, "shared, tail-biting"),
    (Link::Terminated, "shared, terminated"),
];

/// How many inputs, and how many of them of a terminated link.
#[derive(Clone, Copy, Default)]
struct Inputs {
    all: u64,
    terminated: u64,
}

impl Inputs {
    fn count(&mut self, terminated: bool) {
        self.all += 1;
        self.terminated += u64::from(terminated);
    }

    /// Whether there are some of either kind.
    fn both(self) -> bool {
        0 < self.terminated && self.terminated < self.all
    }
}

/// Inputs of one outcome that are of a kind: some must be, and some not.
struct Kind {
    name: &'static str,
    /// The question that refused them, or 0.
    outcome: u64,
    count: u64,
}

pub struct Tally {
    family: &'static str,
    /// The questions that the call asks: each must have refused some input.
    asked: &'static [u64],
    /// Whether the inputs have a link: then each outcome must have come to both
    /// kinds of it.
    links: bool,
    accepted: Inputs,
    kinds: Vec<Kind>,
    /// By the question's number.
    refused: [Inputs; 18],
    pub passed: u64,
    pub failed: u64,
}

impl Tally {
    pub fn new(family: &'static str, asked: &'static [u64]) -> Tally {
        Tally {
            family,
            asked,
            links: false,
            accepted: Inputs::default(),
            kinds: Vec::new(),
            refused: [Inputs::default(); 18],
            passed: 0,
            failed: 0,
        }
    }

    /// The same for inputs that have a kind of link.
    pub fn of_links(family: &'static str, asked: &'static [u64]) -> Tally {
        Tally {
            links: true,
            ..Tally::new(family, asked)
        }
    }

    /// Of the accepted inputs, some must be of this kind and some not.
    pub fn with_kind(self, name: &'static str) -> Tally {
        self.with_kind_of(0, name)
    }

    /// The same of those that a question refuses, or of the accepted, for 0.
    pub fn with_kind_of(mut self, outcome: u64, name: &'static str) -> Tally {
        self.kinds.push(Kind {
            name,
            outcome,
            count: 0,
        });
        self
    }

    /// One more input of this kind, where the family tells of it.
    pub fn count_kind(&mut self, name: &str) {
        if let Some(kind) = self.kinds.iter_mut().find(|kind| kind.name == name) {
            kind.count += 1;
        }
    }

    /// Of the accepted calls some must have empty lists of counts, as d = 1 allows;
    /// of those that question 10 refuses some must have one that is empty, and
    /// some one that is one entry short.
    pub fn with_lists(self) -> Tally {
        self.with_kind(EMPTY_LISTS)
            .with_kind_of(10, EMPTY_LIST)
            .with_kind_of(10, SHORT_LIST)
    }

    /// Counts these kinds of one call, by the entries of its lists.
    pub fn count_lists(&mut self, refusal: u64, d: u64, lists: &[usize]) {
        if refusal == 0 && lists.iter().all(|&entries| entries == 0) {
            self.count_kind(EMPTY_LISTS);
        }
        // For d = 1 no list is too short.
        if refusal == 10 && d > 1 {
            let short = size(d) - 2;
            for (entries, kind) in [(0, EMPTY_LIST), (short, SHORT_LIST)] {
                if lists.contains(&entries) {
                    self.count_kind(kind);
                }
            }
        }
    }

    /// Of the rows some must have counts that several candidates share: on either
    /// kind of link, where the inputs have one.
    pub fn with_shared(self) -> Tally {
        let kinds = if self.links { SHARED.len() } else { 1 };
        let names = SHARED[..kinds].iter().map(|(_, name)| name);
        names.fold(self, |tally, name| tally.with_kind(name))
    }

    /// Counts these kinds of one row.
    pub fn count_shared(&mut self, version: u64, shared: u64) {
        let of_version = SHARED.iter().find(|(link, _)| link.version() == version);
        if let Some((_, name)) = of_version.filter(|_| shared > 1) {
            self.count_kind(name);
        }
    }

    /// Counts one input by the second tool's refusal, 0 for none, and whether
    /// all answers were the same; `tell` gives the input and the answers.
    pub fn count(&mut self, refusal: u64, same: bool, tell: impl FnOnce() -> String) {
        self.count_of(Link::TailBiting.version(), refusal, same, tell);
    }

    /// The same of an input with this version of a link.
    pub fn count_of(
        &mut self,
        version: u64,
        refusal: u64,
        same: bool,
        tell: impl FnOnce() -> String,
    ) {
        let terminated = version == Link::Terminated.version();
        match refusal {
            0 => self.accepted.count(terminated),
            number => self.refused[number as usize].count(terminated),
        }
        if same {
            self.passed += 1;
            return;
        }
        self.failed += 1;
        if self.failed <= SHOWN {
            println!("{} differs: {}", self.family, tell());
        }
    }

    /// Prints the counts; a question that never refused or that the call does
    /// not ask, and a kind that never came or always, are failures too.
    pub fn finish(&mut self) {
        let refused = self.refused.iter().map(|inputs| inputs.all);
        let compared = self.accepted.all + refused.sum::<u64>();
        let (family, accepted) = (self.family, self.accepted.all);
        print!("{family}: {compared} compared, {accepted} accepted");
        let mut right = accepted > 0 && (self.accepted.both() || !self.links);
        self.print_terminated(self.accepted);
        right = self.print_kinds(0, accepted) && right;
        for (number, &inputs) in (0..).zip(&self.refused).skip(1) {
            let asked = self.asked.contains(&number);
            if asked || inputs.all > 0 {
                print!(", {} refused by {number}", inputs.all);
            }
            right = right && asked == (inputs.all > 0);
            if asked && !WITHOUT_KIND.contains(&number) {
                self.print_terminated(inputs);
                right = right && (inputs.both() || !self.links);
            }
            right = self.print_kinds(number, inputs.all) && right;
        }
        println!();
        if !right {
            println!("{family}: an outcome is missing, or one too many");
            self.failed += 1;
        }
    }

    /// The kinds of an outcome: whether some of its inputs were of each, and some
    /// not.
    fn print_kinds(&self, outcome: u64, inputs: u64) -> bool {
        let of_outcome = self.kinds.iter().filter(|kind| kind.outcome == outcome);
        of_outcome.fold(true, |right, &Kind { name, count, .. }| {
            print!(" ({count} {name})");
            right && 0 < count && count < inputs
        })
    }

    fn print_terminated(&self, inputs: Inputs) {
        if self.links {
            print!(" ({} terminated)", inputs.terminated);
        }
    }
}
