//! The library under test, through the crate `dagmuize`.

use dagmuize::bytes;

use crate::images::Images;
use crate::subject::{Parts, Subject};

/// The archive that ./library writes.
pub struct Archive;

impl Subject for Archive {
    fn report(&self, log: &[u8], out: &mut [u8]) -> usize {
        bytes::report(log, out)
    }

    fn status(&self, log: &[u8], limit: usize) -> u8 {
        bytes::status(log, limit)
    }

    fn events(&self, log: &[u8], limit: usize) -> usize {
        bytes::events(log, limit)
    }

    fn taken(&self, log: &[u8], limit: usize) -> usize {
        bytes::taken(log, limit)
    }

    fn read_number(&self, log: &[u8]) -> u8 {
        bytes::read_number(log)
    }

    fn read_taken(&self, log: &[u8]) -> usize {
        bytes::read_taken(log)
    }

    fn put(&self, parts: Parts, buffer: &mut [u8], place: usize) -> u32 {
        let Parts { tag, x, y, v, note } = parts;
        bytes::put(tag, x, y, v, note, buffer, place)
    }

    fn close(&self, log: &[u8], limit: usize, preferred: u8, out: &mut [u8]) -> u64 {
        bytes::close(log, limit, preferred, out)
    }

    fn merge(&self, first: &[u8], second: &[u8], out: &mut [u8]) -> u64 {
        bytes::merge(first, second, out)
    }
}

impl Images for Archive {
    fn open(&self, image: &mut [u8], n: u8, rule: u8) -> u8 {
        bytes::open(image, n, rule)
    }

    fn claim(&self, image: &mut [u8], s: u8, v: u32) -> u8 {
        bytes::claim(image, s, v)
    }

    fn deliver(&self, image: &mut [u8], t: u8, s: u8) -> u8 {
        bytes::deliver(image, t, s)
    }

    fn step(&self, image: &mut [u8], s: u8) -> u8 {
        bytes::step(image, s)
    }

    fn lose(&self, image: &mut [u8], s: u8) -> u8 {
        bytes::lose(image, s)
    }

    fn answer(&self, image: &mut [u8], b: u8, a: u8) -> u8 {
        bytes::answer(image, b, a)
    }

    fn look(&self, image: &[u8], s: u8) -> u64 {
        bytes::look(image, s)
    }

    fn look_all(&self, image: &[u8], out: &mut [u8]) -> u32 {
        bytes::look_all(image, out)
    }

    fn look_ballot(&self, image: &[u8], b: u8, out: &mut [u8]) -> u32 {
        bytes::look_ballot(image, b, out)
    }

    fn image_report(&self, image: &[u8], events: usize, taken: usize, status: u8, out: &mut [u8]) -> usize {
        bytes::image_report(image, events, taken, status, out)
    }

    fn play(&self, log: &[u8], limit: usize, image: &mut [u8]) -> u8 {
        bytes::play(log, limit, image)
    }
}

// ---- single events, for the benchmark

#[cfg(feature = "one_by_one")]
extern "C" {
    fn dagmuize_one_by_one(
        lent: bool,
        log: *const u8,
        log_len: usize,
        limit: usize,
        out: *mut u8,
        out_len: usize,
    ) -> usize;
}

/// The text of a log that is played one event at a time, each lent or by value, from the archive that
/// `rt lib` in crates/one_by_one writes. Safe: each pointer and length are those of one live slice.
#[cfg(feature = "one_by_one")]
pub fn one_by_one(lent: bool, log: &[u8], limit: usize, out: &mut [u8]) -> usize {
    unsafe { dagmuize_one_by_one(lent, log.as_ptr(), log.len(), limit, out.as_mut_ptr(), out.len()) }
}
