//! What the model says that the program prints for the log on standard input.

use std::io::{self, Read, Write};

use conformance::text::settle;

fn main() -> io::Result<()> {
    let mut log = Vec::new();
    io::stdin().read_to_end(&mut log)?;
    io::stdout().write_all(settle(&log).as_bytes())
}
