//! `./log make [FILE]`: words turned into a log.

use std::ffi::{OsStr, OsString};

use dagmuize::{Field, Log};

use crate::verb::{input, Answer, Verb};

pub const VERB: Verb = Verb {
    name: "make",
    call: "make [FILE]",
    about:
        "      The log of a text, on standard output: what show prints is such a text. A bad line gets its number and
      what is wrong, and no byte is written. Without FILE the text is standard input.
",
    takes: |words| words.len() <= 1,
    run,
};

fn run(words: &[OsString]) -> Answer {
    match input(words.first().map_or(OsStr::new("-"), OsString::as_os_str)) {
        Ok(text) => made(&text),
        Err(wrong) => Answer::wrong(wrong),
    }
}

/// The log of a text, or the first line that is no field.
pub fn made(text: &[u8]) -> Answer {
    let mut log = Log::new();
    for (above, line) in text.split(|byte| *byte == b'\n').enumerate() {
        if let Err(wrong) = put_line(&mut log, line) {
            return Answer::wrong(format!("line {}: {wrong}", above + 1));
        }
    }
    Answer::fine(log.into_bytes())
}

/// The field of a line, unless the line is empty or a comment.
fn put_line(log: &mut Log, line: &[u8]) -> Result<(), String> {
    let line = std::str::from_utf8(line).map_err(|_| "it is no text in UTF-8".to_string())?;
    if matches!(line.trim().chars().next(), None | Some('#')) {
        return Ok(());
    }
    let field: Field = line.parse().map_err(|unclear: dagmuize::Unclear| unclear.to_string())?;
    log.put(&field).map_err(|refusal| refusal.to_string())
}
