//! The fields of a log.

use crate::bytes;
use crate::refusal::Refusal;

/// One field of a log, with any numbers: those that no station has too.
#[derive(Clone, Debug, PartialEq, Eq, Hash)]
pub enum Field {
    /// The opening: n stations and the rule's number.
    Open {
        /// The stations.
        n: u8,
        /// The rule's number.
        rule: u8,
    },
    /// CLAIM: station s puts in claim v.
    Claim {
        /// The station.
        s: u8,
        /// Its claim.
        v: u32,
    },
    /// DELIVER: the claim of t reaches s.
    Deliver {
        /// The sender.
        t: u8,
        /// The receiver.
        s: u8,
    },
    /// STEP: station s does its next thing.
    Step {
        /// The station.
        s: u8,
    },
    /// LOSE: station s is lost.
    Lose {
        /// The station.
        s: u8,
    },
    /// ANSWER: ballot b settles on bit a.
    Answer {
        /// The ballot.
        b: u8,
        /// The bit.
        a: u8,
    },
    /// A note, which is no event: at most 64 bytes.
    Note(Vec<u8>),
}

impl Field {
    /// READ: the field at the start of a log and the bytes it takes. Refused: 20, 21, 22, 23.
    pub fn read(log: &[u8]) -> Result<(Field, usize), Refusal> {
        Refusal::unless_accepted(bytes::read_number(log))?;
        let taken = bytes::read_taken(log);
        Ok((Field::of(log[0], &log[3..taken]), taken))
    }

    /// The field of a tag and a body that READ found good.
    fn of(tag: u8, body: &[u8]) -> Field {
        match (tag, body) {
            (0x01, &[n, rule]) => Field::Open { n, rule },
            (0x10, &[s, a, b, c, d]) => Field::Claim { s, v: u32::from_be_bytes([a, b, c, d]) },
            (0x11, &[t, s]) => Field::Deliver { t, s },
            (0x12, &[s]) => Field::Step { s },
            (0x13, &[s]) => Field::Lose { s },
            (0x14, &[b, a]) => Field::Answer { b, a },
            _ => Field::Note(body.to_vec()),
        }
    }

    /// The station that an event belongs to: the one named, of a DELIVER the receiver. An ANSWER belongs to nobody, nor
    /// does what is no event.
    pub fn owner(&self) -> Option<u8> {
        match *self {
            Field::Claim { s, .. } | Field::Deliver { s, .. } | Field::Step { s } | Field::Lose { s } => Some(s),
            Field::Open { .. } | Field::Answer { .. } | Field::Note(_) => None,
        }
    }

    /// What PUT takes: the tag, the one-byte numbers, the claim and the note.
    pub(crate) fn parts(&self) -> (u8, u8, u8, u32, &[u8]) {
        match self {
            Field::Open { n, rule } => (0x01, *n, *rule, 0, &[]),
            Field::Claim { s, v } => (0x10, *s, 0, *v, &[]),
            Field::Deliver { t, s } => (0x11, *t, *s, 0, &[]),
            Field::Step { s } => (0x12, *s, 0, 0, &[]),
            Field::Lose { s } => (0x13, *s, 0, 0, &[]),
            Field::Answer { b, a } => (0x14, *b, *a, 0, &[]),
            Field::Note(note) => (0x30, 0, 0, 0, note),
        }
    }
}
