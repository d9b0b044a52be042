//! The two rules.

/// How a settlement finds its claim: the two ways of the paper.
#[derive(Clone, Copy, Debug, PartialEq, Eq, Hash)]
pub enum Rule {
    /// Rule 1: the ballots settle the bits of a station's number; its claim stands.
    ByStation,
    /// Rule 2: the ballots settle the bits of a claim, and after each bit whether to finish.
    ByClaim,
}

impl Rule {
    /// The rule's number in logs, images and reports.
    pub fn number(self) -> u8 {
        match self {
            Rule::ByStation => 1,
            Rule::ByClaim => 2,
        }
    }
}
