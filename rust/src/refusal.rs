//! The numbers of a refusal, and what they say.

use std::{error, fmt};

/// The table of the numbers, which `./settle` reads too.
const NUMBERS: &str = include_str!("../../include/numbers.txt");

/// Why a call was refused: one of the numbers of README's table. Its text says the number and what it means.
///
/// ```
/// let refusal = dagmuize::Settlement::open(33, dagmuize::Rule::ByStation).unwrap_err();
/// assert_eq!(refusal.number(), 40);
/// assert_eq!(refusal.to_string(), "40: no station, or more than 32");
/// ```
#[derive(Clone, Copy, Debug, PartialEq, Eq, Hash)]
pub struct Refusal(u8);

impl Refusal {
    /// The refusal of a number; none for 0, which says that the call was accepted.
    pub fn of(number: u8) -> Option<Refusal> {
        (number != 0).then_some(Refusal(number))
    }

    /// What a call answered: fine for 0, else the refusal.
    pub(crate) fn unless_accepted(number: u8) -> Result<(), Refusal> {
        Refusal::of(number).map_or(Ok(()), Err)
    }

    /// The number.
    pub fn number(self) -> u8 {
        self.0
    }

    /// What the number says, without the number.
    pub fn words(self) -> &'static str {
        words(self.0).unwrap_or("a number that this version does not know")
    }
}

impl fmt::Display for Refusal {
    fn fmt(&self, f: &mut fmt::Formatter) -> fmt::Result {
        write!(f, "{}: {}", self.0, self.words())
    }
}

impl error::Error for Refusal {}

/// The rows of the table: number, name in C, words.
fn rows() -> impl Iterator<Item = (u8, &'static str, &'static str)> {
    NUMBERS.lines().filter_map(|line| {
        let mut parts = line.splitn(3, ' ');
        Some((parts.next()?.parse().ok()?, parts.next()?, parts.next()?))
    })
}

fn words(number: u8) -> Option<&'static str> {
    rows().find(|row| row.0 == number).map(|row| row.2)
}

#[cfg(test)]
mod tests {
    use super::*;

    const KNOWN: [u8; 30] =
        [0, 1, 2, 3, 4, 5, 6, 7, 8, 9, 10, 11, 12, 20, 21, 22, 23, 24, 25, 26, 30, 40, 41, 42, 43, 60, 61, 62, 80, 81];

    #[test]
    fn the_table_has_every_number_once_and_in_order() {
        assert_eq!(rows().map(|row| row.0).collect::<Vec<_>>(), KNOWN);
        let comments = NUMBERS.lines().filter(|line| line.starts_with('#')).count();
        assert_eq!(NUMBERS.lines().count(), KNOWN.len() + comments, "every line is a comment or a row");
    }

    #[test]
    fn the_header_has_every_row() {
        let header = include_str!("../../include/dagmuize.h").replace(',', "");
        for (number, name, words) in rows() {
            let constant = format!("    DAGMUIZE_{name} = {number} /* {words} */\n").replace(',', "");
            assert_eq!(header.matches(&constant).count(), 1, "{constant}");
        }
    }

    #[test]
    fn a_number_that_is_not_in_the_table_has_an_honest_text() {
        let refusal = Refusal::of(77).expect("77 is not 0");
        assert_eq!(refusal.to_string(), "77: a number that this version does not know");
        assert_eq!(Refusal::of(0), None);
    }
}
