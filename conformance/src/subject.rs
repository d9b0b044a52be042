//! What is compared with the model: the functions that the library exports.

/// The numbers and the note that PUT is given.
#[derive(Clone, Copy, Debug)]
pub struct Parts<'a> {
    pub tag: u8,
    pub x: u8,
    pub y: u8,
    pub v: u32,
    pub note: &'a [u8],
}

pub trait Subject {
    /// The text of the program settle: bytes written, 0 where the buffer is too small.
    fn report(&self, log: &[u8], out: &mut [u8]) -> usize;
    /// RUN's status.
    fn status(&self, log: &[u8], limit: usize) -> u8;
    /// RUN's events played.
    fn events(&self, log: &[u8], limit: usize) -> usize;
    /// RUN's bytes taken.
    fn taken(&self, log: &[u8], limit: usize) -> usize;
    /// READ's number.
    fn read_number(&self, log: &[u8]) -> u8;
    /// READ's bytes taken.
    fn read_taken(&self, log: &[u8]) -> usize;
    /// PUT's number times 65,536, and the count.
    fn put(&self, parts: Parts, buffer: &mut [u8], place: usize) -> u32;
    /// The closing log of what a log plays to: 4,294,967,296 times the number, and the count.
    fn close(&self, log: &[u8], limit: usize, preferred: u8, out: &mut [u8]) -> u64;
    /// One log out of two: 2^56 times the number, and the count.
    fn merge(&self, first: &[u8], second: &[u8], out: &mut [u8]) -> u64;
}
