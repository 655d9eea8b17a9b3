//! The kind of link that an order is for.

use crate::AnyOrder;
use std::fmt;

/// What comes before a word and after it.
#[derive(Clone, Copy, Debug, PartialEq, Eq)]
pub enum Link {
    /// The word's own end comes before its start. The outputs are cyclic
    /// products of N steps; a walk ends in the state where it began.
    TailBiting,
    /// v zeros follow the word, and none but zeros come before it. The outputs
    /// are ordinary products, N+v steps; a walk begins and ends at state 0.
    Terminated,
}

impl Link {
    /// Both.
    pub const ALL: [Link; 2] = [Link::TailBiting, Link::Terminated];

    /// The version of a record that says this kind, and of an `AnyOrder`.
    pub const fn version(self) -> u64 {
        match self {
            Link::TailBiting => 1,
            Link::Terminated => 2,
        }
    }

    /// The kind that a version says; question 2 refuses the others.
    pub fn of(version: u64) -> Option<Link> {
        let says = |link: &Link| link.version() == version;
        Link::ALL.into_iter().find(says)
    }

    /// The steps of a word of so many bits under a memory v.
    pub const fn steps(self, v: u64, bits: u64) -> u64 {
        match self {
            Link::TailBiting => bits,
            Link::Terminated => bits + v,
        }
    }
}

impl fmt::Display for Link {
    fn fmt(&self, f: &mut fmt::Formatter) -> fmt::Result {
        f.write_str(match self {
            Link::TailBiting => "tail-biting",
            Link::Terminated => "terminated",
        })
    }
}

impl AnyOrder {
    /// The same order for a link of this kind.
    pub fn with_link(self, link: Link) -> AnyOrder {
        AnyOrder {
            version: link.version(),
            ..self
        }
    }
}

#[cfg(test)]
mod tests {
    use super::Link;

    #[test]
    fn versions_and_kinds_belong_together() {
        for link in Link::ALL {
            assert_eq!(Link::of(link.version()), Some(link));
        }
        for version in [0, 3, 255, 1 << 32 | 1, u64::MAX] {
            assert_eq!(Link::of(version), None);
        }
        assert_eq!(Link::Terminated.steps(8, 128), 136);
    }
}
