//! What LOOK tells of a station.

use crate::refusal::Refusal;

/// How a station stands.
#[derive(Clone, Copy, Debug, PartialEq, Eq, Hash)]
pub struct Standing {
    /// The claim that it decided, if it has.
    pub decided: Option<u32>,
    /// The ballots it voted in.
    pub votes: u8,
}

impl Standing {
    /// LOOK's answer taken apart. Its eight bytes, highest first: number, decided, votes, 0, and the claim in four.
    pub(crate) fn told(answer: u64) -> Result<Standing, Refusal> {
        let [number, decided, votes, _, a, b, c, d] = answer.to_be_bytes();
        Refusal::unless_accepted(number)?;
        let claim = u32::from_be_bytes([a, b, c, d]);
        Ok(Standing { decided: (decided == 1).then_some(claim), votes })
    }
}

#[cfg(test)]
mod tests {
    use super::*;

    #[test]
    fn the_eight_bytes_are_taken_apart() {
        assert_eq!(Standing::told(0x0001_0400_0000_0193), Ok(Standing { decided: Some(403), votes: 4 }));
        assert_eq!(Standing::told(0x0000_ff00_0000_0000), Ok(Standing { decided: None, votes: 255 }));
        assert_eq!(Standing::told(0x0001_0000_0000_0000), Ok(Standing { decided: Some(0), votes: 0 }));
        assert_eq!(Standing::told(42 << 56).unwrap_err().number(), 42);
    }
}
