//! A lent buffer between guards.

use crate::judge::{pattern, same_bytes, Checked, GUARD};

pub struct Guarded(Vec<u8>);

impl Guarded {
    pub fn of(inside: &[u8]) -> Guarded {
        let mut bytes = pattern(GUARD + inside.len() + GUARD);
        bytes[GUARD..GUARD + inside.len()].copy_from_slice(inside);
        Guarded(bytes)
    }

    /// A buffer of so many bytes that were never written.
    pub fn unwritten(room: usize) -> Guarded {
        Guarded(pattern(GUARD + room + GUARD))
    }

    pub fn lent(&mut self) -> &mut [u8] {
        let end = self.0.len() - GUARD;
        &mut self.0[GUARD..end]
    }

    /// Fails where these are not the bytes inside, or where a guard was written.
    pub fn holds(&self, what: &str, input: &[u8], expected: &[u8]) -> Checked {
        same_bytes(what, input, &Guarded::of(expected).0, &self.0)
    }

    /// The same where only a beginning was written.
    pub fn begins(&self, what: &str, input: &[u8], written: &[u8]) -> Checked {
        let mut expected = Guarded::unwritten(self.0.len() - 2 * GUARD);
        expected.lent()[..written.len()].copy_from_slice(written);
        same_bytes(what, input, &expected.0, &self.0)
    }
}
