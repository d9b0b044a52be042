//! How an app calls the library: a small log is built with PUT, and its report is printed.

use conformance::{
    ffi::Archive,
    subject::{Parts, Subject},
};

fn main() {
    let library = Archive;
    let mut log = [0u8; 64];
    let mut end = 0;
    // one station under rule 1 claims 5, holds its claim and takes a step
    for (tag, x, y, v) in [(0x01, 1, 1, 0), (0x10, 0, 0, 5), (0x11, 0, 0, 0), (0x12, 0, 0, 0)] {
        let answer = library.put(Parts { tag, x, y, v, note: &[] }, &mut log, end);
        assert_eq!(answer >> 16, 0, "PUT's number is 0: the field was written");
        end += (answer & 0xffff) as usize;
    }
    let mut text = [0u8; 24576];
    let written = library.report(&log[..end], &mut text);
    print!("{}", String::from_utf8_lossy(&text[..written]));
}
