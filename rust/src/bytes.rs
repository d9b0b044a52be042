//! The exported functions as they are, one by one, on slices: numbers in, numbers out.
//!
//! The names are those of `include/dagmuize.h` without `dagmuize_`, and the header says what each does. No function
//! asks anything of its arguments, so all of them are safe: a wrapper takes slices apart, and no more.

/// The length of an image in bytes.
pub const IMAGE_BYTES: usize = 1283;

/// The bytes that are always enough for what [`look_all`] writes.
pub const LOOK_ALL_BYTES: usize = 256;

/// The bytes that [`look_ballot`] writes.
pub const LOOK_BALLOT_BYTES: usize = 12;

/// The bytes that are always enough for a report.
pub const REPORT_BYTES: usize = 24_576;

/// The bytes that are always enough for a closing log: for each of 32 stations at most 32 deliveries of 5 bytes and
/// 1,153 steps of 4, and 64 answers of 5.
pub const CLOSING_BYTES: usize = 153_024;

extern "C" {
    fn dagmuize_open(image: *mut u8, image_len: usize, n: u8, rule: u8) -> u8;
    fn dagmuize_claim(image: *mut u8, image_len: usize, s: u8, v: u32) -> u8;
    fn dagmuize_deliver(image: *mut u8, image_len: usize, t: u8, s: u8) -> u8;
    fn dagmuize_step(image: *mut u8, image_len: usize, s: u8) -> u8;
    fn dagmuize_lose(image: *mut u8, image_len: usize, s: u8) -> u8;
    fn dagmuize_answer(image: *mut u8, image_len: usize, b: u8, a: u8) -> u8;
    fn dagmuize_look(image: *const u8, image_len: usize, s: u8) -> u64;
    fn dagmuize_look_all(image: *const u8, image_len: usize, out: *mut u8, out_len: usize) -> u32;
    fn dagmuize_look_ballot(image: *const u8, image_len: usize, b: u8, out: *mut u8, out_len: usize) -> u32;
    fn dagmuize_image_report(
        image: *const u8,
        image_len: usize,
        events: usize,
        taken: usize,
        status: u8,
        out: *mut u8,
        out_len: usize,
    ) -> usize;
    fn dagmuize_play(log: *const u8, log_len: usize, limit: usize, image: *mut u8, image_len: usize) -> u8;
    fn dagmuize_report(log: *const u8, log_len: usize, out: *mut u8, out_len: usize) -> usize;
    fn dagmuize_status(log: *const u8, log_len: usize, limit: usize) -> u8;
    fn dagmuize_events(log: *const u8, log_len: usize, limit: usize) -> usize;
    fn dagmuize_taken(log: *const u8, log_len: usize, limit: usize) -> usize;
    fn dagmuize_read_number(log: *const u8, log_len: usize) -> u8;
    fn dagmuize_read_taken(log: *const u8, log_len: usize) -> usize;
    fn dagmuize_put(
        tag: u8,
        x: u8,
        y: u8,
        v: u32,
        note: *const u8,
        note_len: usize,
        buffer: *mut u8,
        buffer_len: usize,
        place: usize,
    ) -> u32;
    fn dagmuize_close(log: *const u8, log_len: usize, limit: usize, preferred: u8, out: *mut u8, out_len: usize)
        -> u64;
    fn dagmuize_merge(
        first: *const u8,
        first_len: usize,
        second: *const u8,
        second_len: usize,
        out: *mut u8,
        out_len: usize,
    ) -> u64;
}

// Safety, for every call below: each pointer and length are those of one live slice, and two slices of one call do not
// overlap where one of them is lent to be written.

/// OPEN into an image: 0, 80, 40 or 41. With 40 and 41 it is the image of the blank settlement.
pub fn open(image: &mut [u8], n: u8, rule: u8) -> u8 {
    unsafe { dagmuize_open(image.as_mut_ptr(), image.len(), n, rule) }
}

/// CLAIM: station s puts in claim v.
pub fn claim(image: &mut [u8], s: u8, v: u32) -> u8 {
    unsafe { dagmuize_claim(image.as_mut_ptr(), image.len(), s, v) }
}

/// DELIVER: the claim of t reaches s.
pub fn deliver(image: &mut [u8], t: u8, s: u8) -> u8 {
    unsafe { dagmuize_deliver(image.as_mut_ptr(), image.len(), t, s) }
}

/// STEP: station s does its next thing.
pub fn step(image: &mut [u8], s: u8) -> u8 {
    unsafe { dagmuize_step(image.as_mut_ptr(), image.len(), s) }
}

/// LOSE: station s is lost.
pub fn lose(image: &mut [u8], s: u8) -> u8 {
    unsafe { dagmuize_lose(image.as_mut_ptr(), image.len(), s) }
}

/// ANSWER: ballot b settles on bit a.
pub fn answer(image: &mut [u8], b: u8, a: u8) -> u8 {
    unsafe { dagmuize_answer(image.as_mut_ptr(), image.len(), b, a) }
}

/// LOOK s, in eight bytes, highest first: number, decided (0 or 1), votes, 0, and the claim in four.
pub fn look(image: &[u8], s: u8) -> u64 {
    unsafe { dagmuize_look(image.as_ptr(), image.len(), s) }
}

/// LOOK at every station, eight bytes each: 65,536 times the number, plus the bytes written.
pub fn look_all(image: &[u8], out: &mut [u8]) -> u32 {
    unsafe { dagmuize_look_all(image.as_ptr(), image.len(), out.as_mut_ptr(), out.len()) }
}

/// A look at ballot b, in twelve bytes: the stations that cast 0 and those that cast 1 (masks of four bytes, high byte first),
/// how many each has, answered and the answer (0 or 1). 65,536 times the number, plus the bytes written.
pub fn look_ballot(image: &[u8], b: u8, out: &mut [u8]) -> u32 {
    unsafe { dagmuize_look_ballot(image.as_ptr(), image.len(), b, out.as_mut_ptr(), out.len()) }
}

/// The report of an image with these events, taken and status: its length, or 0 where it does not fit.
pub fn image_report(image: &[u8], events: usize, taken: usize, status: u8, out: &mut [u8]) -> usize {
    let (from, to) = (image.as_ptr(), out.as_mut_ptr());
    unsafe { dagmuize_image_report(from, image.len(), events, taken, status, to, out.len()) }
}

/// RUN, its settlement written as an image: RUN's status, or 80 and no byte written.
pub fn play(log: &[u8], limit: usize, image: &mut [u8]) -> u8 {
    unsafe { dagmuize_play(log.as_ptr(), log.len(), limit, image.as_mut_ptr(), image.len()) }
}

/// The report of a log: its length, or 0 where it does not fit.
pub fn report(log: &[u8], out: &mut [u8]) -> usize {
    unsafe { dagmuize_report(log.as_ptr(), log.len(), out.as_mut_ptr(), out.len()) }
}

/// RUN's status.
pub fn status(log: &[u8], limit: usize) -> u8 {
    unsafe { dagmuize_status(log.as_ptr(), log.len(), limit) }
}

/// RUN's events played.
pub fn events(log: &[u8], limit: usize) -> usize {
    unsafe { dagmuize_events(log.as_ptr(), log.len(), limit) }
}

/// RUN's bytes taken.
pub fn taken(log: &[u8], limit: usize) -> usize {
    unsafe { dagmuize_taken(log.as_ptr(), log.len(), limit) }
}

/// READ's number, for the field at the start of a log.
pub fn read_number(log: &[u8]) -> u8 {
    unsafe { dagmuize_read_number(log.as_ptr(), log.len()) }
}

/// The bytes that READ takes.
pub fn read_taken(log: &[u8]) -> usize {
    unsafe { dagmuize_read_taken(log.as_ptr(), log.len()) }
}

/// PUT at a place of a buffer: 65,536 times the number, plus the bytes written.
pub fn put(tag: u8, x: u8, y: u8, v: u32, note: &[u8], buffer: &mut [u8], place: usize) -> u32 {
    let (from, to) = (note.as_ptr(), buffer.as_mut_ptr());
    unsafe { dagmuize_put(tag, x, y, v, from, note.len(), to, buffer.len(), place) }
}

/// CLOSE: the closing log of what a log plays to. 4,294,967,296 times the number (RUN's status, 10, 30), plus the bytes
/// written.
pub fn close(log: &[u8], limit: usize, preferred: u8, out: &mut [u8]) -> u64 {
    let (from, to) = (log.as_ptr(), out.as_mut_ptr());
    unsafe { dagmuize_close(from, log.len(), limit, preferred, to, out.len()) }
}

/// MERGE: one log out of two, for which their lengths together are always enough. 2^56 times the number, plus the bytes
/// written.
pub fn merge(first: &[u8], second: &[u8], out: &mut [u8]) -> u64 {
    let (from, and, to) = (first.as_ptr(), second.as_ptr(), out.as_mut_ptr());
    unsafe { dagmuize_merge(from, first.len(), and, second.len(), to, out.len()) }
}
