//! What a look at a ballot tells.

use std::fmt;

use crate::bytes::LOOK_BALLOT_BYTES;

/// Who voted which way in a ballot.
///
/// ```
/// use dagmuize::{Rule, Settlement};
/// let mut hold = Settlement::open(2, Rule::ByStation)?;
/// for tablet in [0, 1] {
///     hold.claim(tablet, 401 + u32::from(tablet))?;
///     hold.deliver(tablet, tablet)?;
///     hold.step(tablet)?;
///     hold.step(tablet)?; // it votes in ballot 0 on bit 0 of its own number
/// }
/// let tally = hold.look_ballot(0)?;
/// assert_eq!((tally.zero.to_string(), tally.one.to_string()), ("0".to_string(), "1".to_string()));
/// assert_eq!((tally.zero.count(), tally.one.contains(1), tally.answer), (1, true, None));
/// # Ok::<(), dagmuize::Refusal>(())
/// ```
#[derive(Clone, Copy, Debug, PartialEq, Eq, Hash)]
pub struct Tally {
    /// The stations that cast 0.
    pub zero: Voters,
    /// The stations that cast 1.
    pub one: Voters,
    /// The ballot's answer, if it has one: whether it is 1.
    pub answer: Option<bool>,
}

impl Tally {
    /// The bytes of a look at a ballot taken apart: the sets in four bytes each, their counts, answered, the answer.
    pub(crate) fn told(bytes: [u8; LOOK_BALLOT_BYTES]) -> Tally {
        let [a, b, c, d, e, f, g, h, zeros, ones, answered, answer] = bytes;
        Tally {
            zero: Voters { mask: u32::from_be_bytes([a, b, c, d]), count: zeros },
            one: Voters { mask: u32::from_be_bytes([e, f, g, h]), count: ones },
            answer: (answered == 1).then_some(answer == 1),
        }
    }

    /// How many votes there are, of either bit.
    pub fn votes(&self) -> u8 {
        self.zero.count + self.one.count
    }
}

/// A set of stations. Its text is their numbers, with blanks between them.
#[derive(Clone, Copy, Debug, PartialEq, Eq, Hash)]
pub struct Voters {
    mask: u32,
    count: u8,
}

impl Voters {
    /// Station s is bit s.
    pub fn mask(self) -> u32 {
        self.mask
    }

    /// How many there are.
    pub fn count(self) -> u8 {
        self.count
    }

    /// Whether there are none.
    pub fn is_empty(self) -> bool {
        self.mask == 0
    }

    /// Whether station s is one of them.
    pub fn contains(self, s: u8) -> bool {
        s < 32 && self.mask >> s & 1 == 1
    }

    /// Their numbers, rising.
    pub fn stations(self) -> impl Iterator<Item = u8> {
        (0..32).filter(move |s| self.contains(*s))
    }
}

impl fmt::Display for Voters {
    fn fmt(&self, f: &mut fmt::Formatter) -> fmt::Result {
        let numbers: Vec<String> = self.stations().map(|s| s.to_string()).collect();
        f.write_str(&numbers.join(" "))
    }
}

#[cfg(test)]
mod tests {
    use super::*;

    #[test]
    fn the_twelve_bytes_are_taken_apart() {
        let tally = Tally::told([0x80, 0, 0, 5, 0, 1, 0, 0, 3, 1, 1, 1]);
        assert_eq!((tally.zero.mask(), tally.zero.count()), (0x8000_0005, 3));
        assert_eq!(tally.zero.stations().collect::<Vec<_>>(), [0, 2, 31]);
        assert_eq!((tally.one.mask(), tally.one.count(), tally.one.to_string()), (0x1_0000, 1, "16".to_string()));
        assert_eq!((tally.answer, tally.votes()), (Some(true), 4));
        assert_eq!(Tally::told([0, 0, 0, 0, 0, 0, 0, 0, 0, 0, 1, 0]).answer, Some(false));
        assert_eq!(Tally::told([0; 12]).answer, None);
    }

    #[test]
    fn a_set_says_who_is_in_it() {
        let [none, all] = [0, u32::MAX].map(|mask| Voters { mask, count: mask.count_ones() as u8 });
        assert!(none.is_empty() && none.to_string().is_empty() && !none.contains(0));
        assert!(!all.is_empty() && (0..32).all(|s| all.contains(s)) && !all.contains(32) && !all.contains(255));
        assert_eq!(all.stations().count(), 32);
    }
}
