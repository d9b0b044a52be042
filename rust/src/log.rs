//! Logs: written field by field with PUT, and read field by field with READ.

use crate::bytes;
use crate::closing::closing;
use crate::field::Field;
use crate::merging::merge;
use crate::refusal::Refusal;

/// A log that grows field by field.
///
/// ```
/// use dagmuize::{Field, Log};
/// let mut log = Log::new();
/// log.put(&Field::Open { n: 2, rule: 1 })?;
/// log.put(&Field::Claim { s: 0, v: 7 })?;
/// assert_eq!(log.as_bytes(), [1, 0, 2, 2, 1, 0x10, 0, 5, 0, 0, 0, 0, 7]);
/// assert_eq!(log.put(&Field::Note(vec![0; 65])).unwrap_err().number(), 22);
/// # Ok::<(), dagmuize::Refusal>(())
/// ```
#[derive(Clone, Debug, Default, PartialEq, Eq)]
pub struct Log(Vec<u8>);

/// The bytes of the longest field: a note of 64, with its tag and its length.
const LONGEST: usize = 67;

impl Log {
    /// A log without fields.
    pub fn new() -> Log {
        Log::default()
    }

    /// PUT at the log's end. Refused, the log stays: 22 for a note over 64 bytes.
    pub fn put(&mut self, field: &Field) -> Result<(), Refusal> {
        let (tag, x, y, v, note) = field.parts();
        let place = self.0.len();
        self.0.resize(place + LONGEST, 0);
        let answer = bytes::put(tag, x, y, v, note, &mut self.0, place);
        self.0.truncate(place + (answer & 0xffff) as usize);
        Refusal::unless_accepted((answer >> 16) as u8)
    }

    /// CLOSE at the log's end: adds the events of its closing log ([`closing`]). Refused, the log stays: the number of
    /// what stops it, or 10 for a preferred bit above 1.
    pub fn close(&mut self, preferred: u8) -> Result<(), Refusal> {
        self.0.extend(closing(&self.0, preferred)?);
        Ok(())
    }

    /// MERGE: the log becomes the one that is made of it and a second log ([`merge`]), without notes. Refused, the log
    /// stays.
    pub fn merge(&mut self, second: &[u8]) -> Result<(), Refusal> {
        self.0 = merge(&self.0, second)?;
        Ok(())
    }

    /// The log's bytes.
    pub fn as_bytes(&self) -> &[u8] {
        &self.0
    }

    /// The log's bytes, taken out.
    pub fn into_bytes(self) -> Vec<u8> {
        self.0
    }
}

/// The fields of a log with the places where they begin. One that does not read gives its place and the refusal, and
/// ends it.
pub struct Fields<'a> {
    log: &'a [u8],
    place: usize,
}

impl<'a> Fields<'a> {
    /// The fields of a log.
    pub fn of(log: &'a [u8]) -> Fields<'a> {
        Fields { log, place: 0 }
    }
}

impl Iterator for Fields<'_> {
    type Item = (usize, Result<Field, Refusal>);

    fn next(&mut self) -> Option<Self::Item> {
        let (place, rest) = (self.place, &self.log[self.place..]);
        if rest.is_empty() {
            return None;
        }
        let read = Field::read(rest);
        self.place += read.as_ref().map_or(rest.len(), |(_, taken)| *taken);
        Some((place, read.map(|(field, _)| field)))
    }
}

#[cfg(test)]
mod tests {
    use super::*;

    #[test]
    fn every_kind_of_field_is_read_back() {
        let fields = [
            Field::Open { n: 2, rule: 1 },
            Field::Claim { s: 255, v: 4_294_967_295 },
            Field::Deliver { t: 1, s: 0 },
            Field::Step { s: 9 },
            Field::Lose { s: 7 },
            Field::Answer { b: 63, a: 1 },
            Field::Note(vec![0; 64]),
            Field::Note(Vec::new()),
        ];
        let mut log = Log::new();
        for field in &fields {
            assert_eq!(log.put(field), Ok(()));
        }
        let read: Vec<_> = Fields::of(log.as_bytes()).map(|(_, field)| field.expect("it was put")).collect();
        assert_eq!(read, fields);
        let places: Vec<_> = Fields::of(log.as_bytes()).map(|(place, _)| place).collect();
        assert_eq!(places, [0, 5, 13, 18, 22, 26, 31, 98]);
    }

    #[test]
    fn a_field_that_does_not_read_ends_it() {
        let log = [0x12, 0, 1, 0, 0x12, 0, 1];
        let read: Vec<_> = Fields::of(&log).collect();
        assert_eq!(read, [(0, Ok(Field::Step { s: 0 })), (4, Err(Refusal::of(23).expect("23 is not 0")))]);
        assert_eq!(Fields::of(&[]).next(), None);
    }
}
