//! A settlement that its owner advances event by event.

use std::fmt;

use crate::bytes::{self, IMAGE_BYTES, LOOK_ALL_BYTES, LOOK_BALLOT_BYTES, REPORT_BYTES};
use crate::refusal::Refusal;
use crate::rule::Rule;
use crate::standing::Standing;
use crate::tally::Tally;

/// Stations and ballots, kept as the 1,283 bytes of an image. A refused event leaves it as it was.
#[derive(Clone, PartialEq, Eq, Hash)]
pub struct Settlement {
    image: [u8; IMAGE_BYTES],
}

impl Settlement {
    /// OPEN: n stations, 1 to 32, which have yet to claim. Refused: 40.
    pub fn open(n: u8, rule: Rule) -> Result<Settlement, Refusal> {
        let mut image = [0; IMAGE_BYTES];
        Refusal::unless_accepted(bytes::open(&mut image, n, rule.number()))?;
        Ok(Settlement { image })
    }

    /// The settlement of an image that the library wrote.
    pub(crate) fn of_image(image: [u8; IMAGE_BYTES]) -> Settlement {
        Settlement { image }
    }

    /// CLAIM: station s puts in claim v. Refused: 1, 2, 3.
    pub fn claim(&mut self, s: u8, v: u32) -> Result<(), Refusal> {
        Refusal::unless_accepted(bytes::claim(&mut self.image, s, v))
    }

    /// DELIVER: the claim of station t reaches station s, which may be t itself. Refused: 1, 2, 4, 5.
    pub fn deliver(&mut self, t: u8, s: u8) -> Result<(), Refusal> {
        Refusal::unless_accepted(bytes::deliver(&mut self.image, t, s))
    }

    /// STEP: station s does its next thing. Refused: 1, 2, 6, 7, 8; 8 says to try again once there is news.
    pub fn step(&mut self, s: u8) -> Result<(), Refusal> {
        Refusal::unless_accepted(bytes::step(&mut self.image, s))
    }

    /// LOSE: station s is lost for good. Refused: 1, 2.
    pub fn lose(&mut self, s: u8) -> Result<(), Refusal> {
        Refusal::unless_accepted(bytes::lose(&mut self.image, s))
    }

    /// ANSWER: ballot b settles on bit a, which some station cast there. The answer that b has is accepted again, and
    /// changes nothing. Refused: 9, 10, 11, 12.
    pub fn answer(&mut self, b: u8, a: u8) -> Result<(), Refusal> {
        Refusal::unless_accepted(bytes::answer(&mut self.image, b, a))
    }

    /// LOOK: how station s stands. Refused: 1.
    pub fn look(&self, s: u8) -> Result<Standing, Refusal> {
        Standing::told(bytes::look(&self.image, s))
    }

    /// How every station stands, in order. From an opening it is never refused.
    pub fn look_all(&self) -> Result<Vec<Standing>, Refusal> {
        let mut out = [0; LOOK_ALL_BYTES];
        let answer = bytes::look_all(&self.image, &mut out);
        Refusal::unless_accepted((answer >> 16) as u8)?;
        let told = |eight: &[u8]| Standing::told(eight.iter().fold(0, |x, byte| x << 8 | u64::from(*byte)));
        out[..(answer & 0xffff) as usize].chunks_exact(8).map(told).collect()
    }

    /// A look at ballot b: who cast 0, who cast 1, and the answer if there is one. A vote stands though its voter is lost
    /// later. Refused: 9.
    pub fn look_ballot(&self, b: u8) -> Result<Tally, Refusal> {
        let mut out = [0; LOOK_BALLOT_BYTES];
        let answer = bytes::look_ballot(&self.image, b, &mut out);
        Refusal::unless_accepted((answer >> 16) as u8)?;
        Ok(Tally::told(out))
    }

    /// The text of `./settle`, with these events, bytes taken and status in its first line.
    pub fn report(&self, events: usize, taken: usize, status: u8) -> String {
        let mut text = vec![0; REPORT_BYTES];
        let length = bytes::image_report(&self.image, events, taken, status, &mut text);
        String::from_utf8_lossy(&text[..length]).into_owned()
    }

    /// The image, to keep in a file or to send.
    pub fn to_bytes(&self) -> [u8; IMAGE_BYTES] {
        self.image
    }

    /// The settlement of an image. Refused: 80 for another length, 81 for another version, 42 for what no settlement
    /// has.
    ///
    /// A made-up image may pass, and some later event of it may then be refused with 42.
    pub fn from_bytes(image: &[u8]) -> Result<Settlement, Refusal> {
        let answer = bytes::look_all(image, &mut [0; LOOK_ALL_BYTES]);
        Refusal::unless_accepted((answer >> 16) as u8)?;
        let mut kept = [0; IMAGE_BYTES];
        kept.copy_from_slice(image);
        Ok(Settlement { image: kept })
    }
}

/// The lines of the report for the stations.
impl fmt::Debug for Settlement {
    fn fmt(&self, f: &mut fmt::Formatter) -> fmt::Result {
        let report = self.report(0, 0, 0);
        let [_, n, rule, ..] = self.image;
        write!(f, "Settlement {{ stations {n}, rule {rule}")?;
        report.lines().skip(1).try_for_each(|line| write!(f, ", {line}"))?;
        write!(f, " }}")
    }
}

#[cfg(test)]
mod tests {
    use super::*;

    fn number<T: fmt::Debug>(refused: Result<T, Refusal>) -> u8 {
        refused.expect_err("it is refused").number()
    }

    /// Case A of document 01: one station decides its own claim.
    fn decided() -> Settlement {
        let mut settlement = Settlement::open(1, Rule::ByStation).expect("1 and rule 1 are fine");
        settlement.claim(0, 5).expect("idle");
        settlement.deliver(0, 0).expect("claimed");
        settlement.step(0).expect("its claim is held");
        settlement
    }

    #[test]
    fn one_station_decides_its_own_claim() {
        let settlement = decided();
        let standing = Standing { decided: Some(5), votes: 0 };
        assert_eq!(settlement.look(0), Ok(standing));
        assert_eq!(settlement.look_all(), Ok(vec![standing]));
        let text = "stations 1 rule 1 ballots 0 events 3 taken 22 status 0\n0 decided 5 votes 0 live\n";
        assert_eq!(settlement.report(3, 22, 0), text);
        assert_eq!(format!("{settlement:?}"), "Settlement { stations 1, rule 1, 0 decided 5 votes 0 live }");
    }

    #[test]
    fn every_station_of_32_is_looked_at() {
        let mut settlement = Settlement::open(32, Rule::ByClaim).expect("32 and rule 2 are fine");
        settlement.lose(31).expect("live");
        let one_by_one: Result<Vec<Standing>, Refusal> = (0..32).map(|s| settlement.look(s)).collect();
        assert_eq!(settlement.look_all(), one_by_one);
        assert_eq!(number(settlement.look(32)), 1);
    }

    #[test]
    fn each_event_has_its_refusals_and_a_refused_one_changes_nothing() {
        let mut settlement = decided();
        let before = settlement.clone();
        assert_eq!(number(settlement.claim(0, 6)), 3);
        assert_eq!(number(settlement.deliver(0, 1)), 1);
        assert_eq!(number(settlement.deliver(0, 0)), 5);
        assert_eq!(number(settlement.step(0)), 7);
        assert_eq!(number(settlement.lose(9)), 1);
        assert_eq!(number(settlement.answer(0, 1)), 9);
        assert_eq!(settlement, before);
        assert_eq!(number(Settlement::open(0, Rule::ByClaim)), 40);
    }

    /// Case G of document 01, as document 02 has it since.
    #[test]
    fn an_answer_that_comes_again_is_accepted_and_the_other_bit_is_not() {
        let mut settlement = Settlement::open(2, Rule::ByStation).expect("2 and rule 1 are fine");
        settlement.claim(0, 7).expect("idle");
        settlement.deliver(0, 0).expect("claimed");
        settlement.step(0).expect("its claim is held");
        settlement.step(0).expect("it casts 0");
        assert_eq!([number(settlement.answer(0, 1)), number(settlement.answer(0, 2))], [12, 10]);
        settlement.answer(0, 0).expect("0 was cast");
        settlement.lose(0).expect("live");
        let before = settlement.clone();
        assert_eq!([settlement.answer(0, 0), settlement.answer(0, 0)], [Ok(()); 2]);
        assert_eq!([number(settlement.answer(0, 1)), number(settlement.answer(0, 2))], [11, 10]);
        assert_eq!(settlement, before);
    }

    /// Ballot 0: who cast 0 at 643, who cast 1 at 647, answered at 1155, the answer at 1156.
    #[test]
    fn a_made_up_answer_that_nobody_cast_is_an_answer() {
        let mut image = Settlement::open(2, Rule::ByStation).expect("2 and rule 1 are fine").to_bytes();
        let [nobody, both] = [[0; 4], [0, 0, 0, 3]];
        for (cast, marks, due) in [
            ([nobody, nobody], [1, 0], [0, 11]),
            ([nobody, both], [1, 0], [0, 11]),
            ([both, nobody], [1, 1], [11, 0]),
            ([both, both], [1, 1], [11, 0]),
        ] {
            image[643..651].copy_from_slice(&cast.concat());
            image[1155..1157].copy_from_slice(&marks);
            let before = image;
            let numbers = [0, 1].map(|a| bytes::answer(&mut image, 0, a));
            assert_eq!((numbers, image), (due, before));
        }
    }

    /// Three stations by claim: stations 0 and 2 cast 0, station 1 casts 1.
    #[test]
    fn who_voted_which_way_is_shown_though_a_voter_is_lost() {
        let mut settlement = Settlement::open(3, Rule::ByClaim).expect("3 and rule 2 are fine");
        for (s, v) in [(0, 4), (1, 5), (2, 6)] {
            settlement.claim(s, v).expect("idle");
            settlement.deliver(s, s).expect("claimed");
            settlement.step(s).expect("its claim is held");
            settlement.step(s).expect("it votes");
        }
        settlement.lose(2).expect("live");
        let tally = settlement.look_ballot(0).expect("there is ballot 0");
        assert_eq!((tally.zero.mask(), tally.one.mask(), tally.answer), (5, 2, None));
        assert_eq!((tally.zero.count(), tally.one.count(), tally.votes()), (2, 1, 3));
        settlement.answer(0, 0).expect("0 was cast");
        assert_eq!(settlement.look_ballot(0), Ok(Tally { answer: Some(false), ..tally }));
        let last = settlement.look_ballot(63).expect("there is ballot 63");
        assert_eq!((last.votes(), last.answer), (0, None));
        assert_eq!([number(settlement.look_ballot(64)), number(settlement.look_ballot(255))], [9; 2]);
        assert_eq!(number(decided().look_ballot(0)), 9);
    }

    /// 80, 81, 42 and 9 go before 30, and a refused look writes no byte.
    #[test]
    fn a_look_at_a_ballot_needs_twelve_bytes() {
        let mut image = Settlement::open(2, Rule::ByStation).expect("2 and rule 1 are fine").to_bytes();
        image[646] = 3;
        let look = |image: &[u8], b: u8, room: usize| {
            let mut out = [7; 14];
            let answer = bytes::look_ballot(image, b, &mut out[..room]);
            (answer, out)
        };
        let written = [0, 0, 0, 3, 0, 0, 0, 0, 2, 0, 0, 0, 7, 7];
        assert_eq!([look(&image, 0, 12), look(&image, 0, 14)], [(12, written); 2]);
        assert_eq!([look(&image, 0, 11), look(&image, 0, 0)], [(30 << 16, [7; 14]); 2]);
        assert_eq!([look(&image, 1, 14), look(&image, 1, 0)], [(9 << 16, [7; 14]); 2]);
        assert_eq!(look(&image[..899], 1, 0), (80 << 16, [7; 14]));
        image[1155] = 2;
        assert_eq!(look(&image, 1, 0), (42 << 16, [7; 14]));
        image[0] = 2;
        assert_eq!(look(&image, 1, 0), (81 << 16, [7; 14]));
    }

    #[test]
    fn an_image_is_read_back_and_what_is_none_is_refused() {
        let settlement = decided();
        let image = settlement.to_bytes();
        assert_eq!(Settlement::from_bytes(&image), Ok(settlement));
        let with = |place: usize, byte: u8| {
            let mut image = image;
            image[place] = byte;
            number(Settlement::from_bytes(&image))
        };
        assert_eq!(number(Settlement::from_bytes(&image[1..])), 80);
        // 899 bytes were an image of version 1
        assert_eq!([number(Settlement::from_bytes(&[])), number(Settlement::from_bytes(&image[..899]))], [80; 2]);
        // version 2 had as many bytes
        assert_eq!([with(0, 1), with(0, 2), with(0, 4)], [81; 3]);
        // 33 stations, rule 3, a stage that there is not, a cursor past the stations, marks that are neither 0 nor 1
        assert_eq!([with(1, 33), with(2, 3), with(3, 8), with(5, 1), with(1155, 2), with(1282, 2)], [42; 6]);
    }

    /// Rule 2: an idle station with round 32 passes the record test, until it votes.
    #[test]
    fn a_made_up_image_may_pass_and_meet_42_later() {
        let mut image = Settlement::open(1, Rule::ByClaim).expect("1 and rule 2 are fine").to_bytes();
        image[6] = 32;
        let mut settlement = Settlement::from_bytes(&image).expect("idle, so its round is not looked at");
        settlement.claim(0, 5).expect("idle");
        settlement.deliver(0, 0).expect("claimed");
        settlement.step(0).expect("its claim is held");
        assert_eq!([number(settlement.step(0)), number(settlement.look_all())], [42; 2]);
    }
}
