//! Fields in words: `claim 0 7`, `note "hi"`. What is printed reads back as the same field.

use std::{error, fmt, str::FromStr};

use crate::field::Field;

/// Why a line is no field, in words.
#[derive(Clone, Debug, PartialEq, Eq)]
pub struct Unclear(String);

impl fmt::Display for Unclear {
    fn fmt(&self, f: &mut fmt::Formatter) -> fmt::Result {
        f.write_str(&self.0)
    }
}

impl error::Error for Unclear {}

impl fmt::Display for Field {
    fn fmt(&self, f: &mut fmt::Formatter) -> fmt::Result {
        match self {
            Field::Open { n, rule } => write!(f, "open {n} {rule}"),
            Field::Claim { s, v } => write!(f, "claim {s} {v}"),
            Field::Deliver { t, s } => write!(f, "deliver {t} {s}"),
            Field::Step { s } => write!(f, "step {s}"),
            Field::Lose { s } => write!(f, "lose {s}"),
            Field::Answer { b, a } => write!(f, "answer {b} {a}"),
            Field::Note(note) => write!(f, "note \"{}\"", note.iter().map(|byte| escaped(*byte)).collect::<String>()),
        }
    }
}

/// A byte of a note: printable ASCII as it is, but for the quote and the backslash.
fn escaped(byte: u8) -> String {
    match byte {
        b'"' | b'\\' => format!("\\{}", char::from(byte)),
        b'\n' => "\\n".to_string(),
        b' '..=b'~' => char::from(byte).to_string(),
        _ => format!("\\x{byte:02x}"),
    }
}

/// Reads a field in words; a comment, from `#` on, may follow it.
///
/// ```
/// use dagmuize::Field;
/// assert_eq!("claim 0 7  # a comment".parse(), Ok(Field::Claim { s: 0, v: 7 }));
/// assert_eq!(r#"note "a \"b\"\n""#.parse(), Ok(Field::Note(b"a \"b\"\n".to_vec())));
/// assert_eq!("claim 0".parse::<Field>().unwrap_err().to_string(), "claim takes a station and a claim");
/// ```
impl FromStr for Field {
    type Err = Unclear;

    fn from_str(line: &str) -> Result<Field, Unclear> {
        let line = line.trim();
        let (name, rest) = line.split_once(char::is_whitespace).unwrap_or((line, ""));
        if name == "note" {
            return note(rest.trim_start());
        }
        let plain = line.split('#').next().unwrap_or("");
        let words: Vec<&str> = plain.split_whitespace().collect();
        numbered(&words)
    }
}

fn unclear<T>(why: impl Into<String>) -> Result<T, Unclear> {
    Err(Unclear(why.into()))
}

/// A field of numbers, its name first.
fn numbered(words: &[&str]) -> Result<Field, Unclear> {
    Ok(match words {
        ["open", n, rule] => Field::Open { n: byte(n)?, rule: byte(rule)? },
        ["claim", s, v] => Field::Claim { s: byte(s)?, v: number(v, u32::MAX)? },
        ["deliver", t, s] => Field::Deliver { t: byte(t)?, s: byte(s)? },
        ["step", s] => Field::Step { s: byte(s)? },
        ["lose", s] => Field::Lose { s: byte(s)? },
        ["answer", b, a] => Field::Answer { b: byte(b)?, a: byte(a)? },
        [name, ..] => return unclear(takes(name)),
        [] => return unclear("there is no field on this line"),
    })
}

/// What a field takes, for a line that gives it something else.
fn takes(name: &str) -> String {
    let takes = match name {
        "open" => "a number of stations and a rule",
        "claim" => "a station and a claim",
        "deliver" => "two stations, whose claim and whom it reaches",
        "step" | "lose" => "a station",
        "answer" => "a ballot and a bit",
        _ => return format!("'{name}' is none of open, claim, deliver, step, lose, answer and note"),
    };
    format!("{name} takes {takes}")
}

fn byte(word: &str) -> Result<u8, Unclear> {
    number(word, u8::MAX.into()).map(|number| number as u8)
}

/// Decimal digits, up to a most.
fn number(word: &str, most: u32) -> Result<u32, Unclear> {
    let digits = word.bytes().all(|byte| byte.is_ascii_digit());
    match word.parse() {
        Ok(number) if digits && number <= most => Ok(number),
        _ => unclear(format!("'{word}' is no number from 0 to {most}")),
    }
}

/// A note between quotes, and after it nothing but a comment.
fn note(text: &str) -> Result<Field, Unclear> {
    let Some(inside) = text.strip_prefix('"') else {
        return unclear("note takes a text between double quotes");
    };
    let (note, rest) = unquoted(inside.as_bytes())?;
    match rest.trim_ascii_start().first() {
        None | Some(b'#') => Ok(Field::Note(note)),
        Some(_) => unclear("something stands after the note's closing quote"),
    }
}

/// The bytes up to the closing quote, and what stands after it.
fn unquoted(text: &[u8]) -> Result<(Vec<u8>, &[u8]), Unclear> {
    let (mut note, mut rest) = (Vec::new(), text);
    loop {
        let (byte, left) = match rest {
            [b'"', left @ ..] => return Ok((note, left)),
            [b'\\', b'n', left @ ..] => (b'\n', left),
            [b'\\', b'x', high, low, left @ ..] => (hexadecimal(*high, *low)?, left),
            [b'\\', byte @ (b'"' | b'\\'), left @ ..] => (*byte, left),
            [b'\\', ..] => return unclear(ESCAPES),
            [byte, left @ ..] => (*byte, left),
            [] => return unclear("the note's closing quote is missing"),
        };
        note.push(byte);
        rest = left;
    }
}

const ESCAPES: &str = r#"after a backslash a note has n, ", \ or x and two hexadecimal digits"#;

fn hexadecimal(high: u8, low: u8) -> Result<u8, Unclear> {
    let digit = |byte: u8| char::from(byte).to_digit(16);
    match (digit(high), digit(low)) {
        (Some(high), Some(low)) => Ok((16 * high + low) as u8),
        _ => unclear(ESCAPES),
    }
}

#[cfg(test)]
mod tests {
    use super::*;

    fn why(line: &str) -> String {
        line.parse::<Field>().expect_err(line).to_string()
    }

    #[test]
    fn every_byte_of_a_note_reads_back() {
        for byte in 0..=255 {
            for note in [vec![byte], vec![b'\\', byte], vec![byte; 64], Vec::new()] {
                let field = Field::Note(note);
                assert_eq!(field.to_string().parse(), Ok(field.clone()), "{field}");
                assert!(field.to_string().bytes().all(|byte| (b' '..=b'~').contains(&byte)), "{field}");
            }
        }
    }

    #[test]
    fn a_comment_is_no_part_of_a_note() {
        assert_eq!("note \"a # b\" # c \"".parse(), Ok(Field::Note(b"a # b".to_vec())));
        assert_eq!("  step\t3# c".parse(), Ok(Field::Step { s: 3 }));
        assert_eq!("note \"\u{e9}\"".parse(), Ok(Field::Note(vec![0xc3, 0xa9])));
    }

    #[test]
    fn what_is_wrong_is_said() {
        assert_eq!(why("open 2"), "open takes a number of stations and a rule");
        assert_eq!(why("deliver 1 2 3"), "deliver takes two stations, whose claim and whom it reaches");
        assert_eq!(why("step"), "step takes a station");
        assert_eq!(why("answer 1"), "answer takes a ballot and a bit");
        assert_eq!(why("Step 1"), "'Step' is none of open, claim, deliver, step, lose, answer and note");
        assert_eq!(why("lose 256"), "'256' is no number from 0 to 255");
        assert_eq!(why("lose +1"), "'+1' is no number from 0 to 255");
        assert_eq!(why("claim 0 4294967296"), "'4294967296' is no number from 0 to 4294967295");
        assert_eq!(why("claim 0 -1"), "'-1' is no number from 0 to 4294967295");
        assert_eq!(why("note hi"), "note takes a text between double quotes");
        assert_eq!(why("note"), "note takes a text between double quotes");
        assert_eq!(why("note \"hi"), "the note's closing quote is missing");
        assert_eq!(why("note \"hi\\\""), "the note's closing quote is missing");
        assert_eq!(why("note \"hi\" there"), "something stands after the note's closing quote");
        assert_eq!([why("note \"\\q\""), why("note \"\\xg0\""), why("note \"\\x1")], [ESCAPES; 3]);
        assert_eq!([why(""), why("# only this")], ["there is no field on this line"; 2]);
    }
}
