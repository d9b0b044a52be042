//! What a verb is, and what verbs share.

use std::ffi::{OsStr, OsString};
use std::fs;
use std::io::{self, Read};

pub struct Verb {
    pub name: &'static str,
    /// The call in the usage line.
    pub call: &'static str,
    /// Indented lines of the help.
    pub about: &'static str,
    /// Whether it takes these words after its name.
    pub takes: fn(&[OsString]) -> bool,
    pub run: fn(&[OsString]) -> Answer,
}

/// What goes to standard output and, where something is wrong, the line for standard error.
pub struct Answer {
    pub out: Vec<u8>,
    pub wrong: Option<String>,
}

impl Answer {
    pub fn fine(out: impl Into<Vec<u8>>) -> Answer {
        Answer { out: out.into(), wrong: None }
    }

    pub fn wrong(wrong: String) -> Answer {
        Answer { out: Vec::new(), wrong: Some(wrong) }
    }
}

/// The bytes of a file; `-` is standard input.
pub fn input(file: &OsStr) -> Result<Vec<u8>, String> {
    let mut bytes = Vec::new();
    let read = match file == "-" {
        true => io::stdin().read_to_end(&mut bytes).map(|_| bytes),
        false => fs::read(file),
    };
    read.map_err(|error| format!("cannot read {}: {error}", file.to_string_lossy()))
}
