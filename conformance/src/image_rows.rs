//! Rows with literal bytes, written from the image's table, document 01 and requests A.1 and A.2 of document 02 by hand, so that no
//! error of `image.rs` goes through because the subject makes it too. Places: station s begins at 3 + 20 s, who voted in ballot b at
//! 643 + 8 b, its marks at 1155 + 2 b.

use crate::image_judge::ImageJudge;
use crate::judge::{hex, Checked};
use crate::log::Counts;
use crate::model::Event;

const CLAIM: Event = Event::Claim { s: 0, v: 77 };
const DELIVER: Event = Event::Deliver { t: 0, s: 0 };
const STEP: Event = Event::Step { s: 0 };
const LOSE: Event = Event::Lose { s: 0 };
const ANSWER: Event = Event::Answer { b: 0, a: 0 };

/// A byte of an image, and what it is set to.
type Byte = (usize, u8);

pub fn check(judge: &mut ImageJudge) -> Checked {
    openings(judge)?;
    by_station(judge)?;
    by_claim(judge)?;
    high_numbers(judge)?;
    no_images(judge)?;
    tests(judge)?;
    last_ballot(judge)?;
    repeats(judge)?;
    looks(judge)?;
    ballots(judge)?;
    texts(judge)?;
    answered_twice(judge)?;
    logs(judge)
}

/// Fails where the model does not say what is written here.
fn agree<T: PartialEq + std::fmt::Debug>(what: &str, input: &[u8], by_hand: T, model: T) -> Checked {
    if by_hand == model {
        return Ok(());
    }
    Err(format!("{what}\n  by hand:   {by_hand:?}\n  the model: {model:?}\n  input: {}", hex(input)))
}

fn agree_bytes(what: &str, input: &[u8], by_hand: &[u8], model: &[u8]) -> Checked {
    agree(what, input, hex(by_hand), hex(model))
}

/// An image with these bytes, the others 0.
fn image(bytes: &[Byte]) -> Vec<u8> {
    let mut image = vec![0; 1283];
    bytes.iter().for_each(|(place, byte)| image[*place] = *byte);
    image
}

struct Hand<'a, 'b> {
    judge: &'a mut ImageJudge<'b>,
    image: Vec<u8>,
}

impl Hand<'_, '_> {
    /// An event, its number and the bytes that it sets.
    fn event(&mut self, event: Event, number: u8, sets: &[Byte]) -> Checked {
        let mut expected = self.image.clone();
        sets.iter().for_each(|(place, byte)| expected[*place] = *byte);
        let (model, after) = self.judge.event(&self.image, event)?;
        let what = format!("{event:?}");
        agree(&what, &self.image, number, model)?;
        agree_bytes(&what, &self.image, &expected, &after)?;
        self.image = after;
        Ok(())
    }

    fn step(&mut self, s: u8, sets: &[Byte]) -> Checked {
        self.event(Event::Step { s }, 0, sets)
    }

    fn look(&mut self, s: u8, word: u64) -> Checked {
        look(self.judge, &self.image, s, word)
    }

    /// A look at a ballot, and the bytes that it writes.
    fn ballot(&mut self, b: u8, bytes: &[u8]) -> Checked {
        look_ballot(self.judge, &self.image, b, Ok(bytes.to_vec()))
    }

    /// A look at a ballot that is refused.
    fn no_ballot(&mut self, b: u8, number: u8) -> Checked {
        look_ballot(self.judge, &self.image, b, Err(number))
    }
}

fn hand<'a, 'b>(judge: &'a mut ImageJudge<'b>, bytes: &[Byte]) -> Hand<'a, 'b> {
    Hand { judge, image: image(bytes) }
}

fn look(judge: &mut ImageJudge, image: &[u8], s: u8, word: u64) -> Checked {
    agree("LOOK", image, word.to_be_bytes(), crate::image::look(image, s))?;
    judge.look(image, s)
}

/// A look at a ballot, in rooms that are large enough, and in those that are not: these have 30, where nothing else is refused.
fn look_ballot(judge: &mut ImageJudge, image: &[u8], b: u8, due: Result<Vec<u8>, u8>) -> Checked {
    for room in [12, 13, 256] {
        agree("a look at a ballot", image, due.clone(), crate::image::look_ballot(image, b, room))?;
        judge.look_ballot(image, b, room)?;
    }
    for room in [0, 1, 11] {
        let due = due.clone().and(Err(30));
        agree("a look at a ballot", image, due, crate::image::look_ballot(image, b, room))?;
        judge.look_ballot(image, b, room)?;
    }
    Ok(())
}

/// Every event and look gives this number, and each leaves every byte.
fn refused(judge: &mut ImageJudge, image: &[u8], number: u8) -> Checked {
    let mut hand = Hand { judge, image: image.to_vec() };
    for event in [CLAIM, DELIVER, STEP, LOSE, ANSWER] {
        hand.event(event, number, &[])?;
    }
    hand.look(0, u64::from(number) << 56)?;
    [0, 63, 64, 255].into_iter().try_for_each(|b| hand.no_ballot(b, number))?;
    judge.look_all(image, 256)?;
    let text = judge.report(image, Counts { events: 7, taken: 8, status: 9 })?;
    let due = format!("stations 0 rule 1 ballots 0 events 0 taken 0 status {number}\n");
    agree("a refused image's text", image, due, text)
}

/// The record test is passed: LOSE is accepted, and sets byte 4.
fn sound(judge: &mut ImageJudge, bytes: &[Byte]) -> Checked {
    hand(judge, bytes).event(LOSE, 0, &[(4, 1)])
}

/// Accepted, the head and zeros; refused, the blank settlement: no stations, rule 1. So over no image, and over one.
fn openings(judge: &mut ImageJudge) -> Checked {
    for (n, rule, head) in [
        (2, 1, [3, 2, 1]),
        (32, 2, [3, 32, 2]),
        (1, 2, [3, 1, 2]),
        (0, 1, [3, 0, 1]),
        (33, 2, [3, 0, 1]),
        (255, 3, [3, 0, 1]),
        (32, 3, [3, 0, 1]),
        (1, 0, [3, 0, 1]),
    ] {
        let [version, count, by] = head;
        let due = image(&[(0, version), (1, count), (2, by)]);
        for before in [vec![0xee; 1283], image(&[(0, 3), (1, 2), (2, 1), (3, 7), (1282, 1)])] {
            agree_bytes("OPEN", &head, &due, &judge.open(&before, n, rule)?)?;
        }
    }
    for size in [0, 1, 899, 1155, 1282, 1284] {
        let after = judge.open(&vec![0xee; size], 2, 1)?;
        agree_bytes("OPEN of another length", &[], &vec![0xee; size], &after)?;
    }
    Ok(())
}

/// Two stations by station. Station 0 is at 3: stage 3, lost 4, cursor 5, round 6, held 7, claim 11, word 15, decision 19.
fn by_station(judge: &mut ImageJudge) -> Checked {
    let mut hand = hand(judge, &[(0, 3), (1, 2), (2, 1)]);
    hand.look(0, 0)?;
    hand.event(STEP, 6, &[])?;
    hand.event(DELIVER, 4, &[])?;
    hand.event(Event::Claim { s: 2, v: 9 }, 1, &[])?;
    hand.event(Event::Claim { s: 0, v: 0x0102_0304 }, 0, &[(3, 1), (11, 1), (12, 2), (13, 3), (14, 4)])?;
    hand.event(CLAIM, 3, &[])?;
    hand.event(STEP, 8, &[])?;
    hand.event(Event::Claim { s: 1, v: 0xa000_0009 }, 0, &[(23, 1), (31, 0xa0), (34, 9)])?;
    hand.event(DELIVER, 0, &[(10, 1)])?;
    hand.event(DELIVER, 5, &[])?;
    hand.event(Event::Deliver { t: 1, s: 0 }, 0, &[(10, 3)])?;
    hand.event(Event::Deliver { t: 1, s: 1 }, 0, &[(30, 2)])?;
    hand.step(0, &[(3, 2)])?;
    hand.step(1, &[(23, 2), (25, 1)])?;
    hand.look(1, 0)?;
    // station 0 casts 0, station 1 casts 1; the lowest byte of ballot 0's sets is at 646 and 650
    hand.step(0, &[(3, 3), (646, 1)])?;
    hand.event(Event::Answer { b: 0, a: 1 }, 12, &[])?;
    hand.step(1, &[(23, 3), (650, 2)])?;
    hand.ballot(0, &[0, 0, 0, 1, 0, 0, 0, 2, 1, 1, 0, 0])?;
    hand.look(1, 0x0000_0100_0000_0000)?;
    answered(hand)
}

/// The same two stations, once both have voted: ballot 0 is answered 1, and both are lost in the end.
fn answered(mut hand: Hand) -> Checked {
    hand.event(STEP, 8, &[])?;
    hand.event(Event::Answer { b: 1, a: 1 }, 9, &[])?;
    hand.event(Event::Answer { b: 0, a: 2 }, 10, &[])?;
    hand.event(Event::Answer { b: 0, a: 1 }, 0, &[(1155, 1), (1156, 1)])?;
    hand.event(Event::Answer { b: 0, a: 1 }, 0, &[])?;
    hand.event(ANSWER, 11, &[])?;
    hand.step(0, &[(3, 4), (18, 1)])?;
    hand.event(Event::Answer { b: 0, a: 1 }, 0, &[])?;
    // j is 1 now, its claim held and its bit 1: decided
    hand.step(0, &[(3, 7), (5, 1), (19, 0xa0), (22, 9)])?;
    hand.event(STEP, 7, &[])?;
    hand.look(0, 0x0001_0100_a000_0009)?;
    hand.event(LOSE, 0, &[(4, 1)])?;
    hand.event(LOSE, 2, &[])?;
    hand.event(Event::Lose { s: 1 }, 0, &[(24, 1)])?;
    hand.ballot(0, &[0, 0, 0, 1, 0, 0, 0, 2, 1, 1, 1, 1])?;
    hand.no_ballot(1, 9)?;
    hand.event(Event::Answer { b: 0, a: 1 }, 0, &[])?;
    hand.event(ANSWER, 11, &[])?;
    hand.look(0, 0x0001_0100_a000_0009)?;
    hand.look(2, 0x0100_0000_0000_0000)
}

/// One station by claim, its claim 2: ballots 0 and 1, then 2 and 3, at 643, 651, 659 and 667, marked at 1155, 1157, 1159 and 1161.
fn by_claim(judge: &mut ImageJudge) -> Checked {
    let mut hand = hand(judge, &[(0, 3), (1, 1), (2, 2)]);
    hand.event(Event::Claim { s: 0, v: 2 }, 0, &[(3, 1), (14, 2)])?;
    hand.event(DELIVER, 0, &[(10, 1)])?;
    hand.step(0, &[(3, 2)])?;
    hand.step(0, &[(3, 3), (646, 1)])?;
    hand.event(ANSWER, 0, &[(1155, 1)])?;
    hand.step(0, &[(3, 4)])?;
    hand.step(0, &[(3, 5)])?;
    hand.look(0, 0x0000_0100_0000_0000)?;
    // the word is 0 and the claim 2: it casts 0
    hand.step(0, &[(3, 6), (654, 1)])?;
    hand.look(0, 0x0000_0200_0000_0000)?;
    hand.event(Event::Answer { b: 1, a: 0 }, 0, &[(1157, 1)])?;
    hand.step(0, &[(3, 2), (6, 1)])?;
    hand.step(0, &[(3, 3), (666, 1)])?;
    hand.event(Event::Answer { b: 2, a: 1 }, 0, &[(1159, 1), (1160, 1)])?;
    hand.step(0, &[(3, 4), (18, 2)])?;
    hand.step(0, &[(3, 5)])?;
    hand.step(0, &[(3, 6), (674, 1)])?;
    hand.event(Event::Answer { b: 3, a: 1 }, 0, &[(1161, 1), (1162, 1)])?;
    hand.step(0, &[(3, 7), (22, 2)])?;
    hand.ballot(0, &[0, 0, 0, 1, 0, 0, 0, 0, 1, 0, 1, 0])?;
    hand.ballot(1, &[0, 0, 0, 1, 0, 0, 0, 0, 1, 0, 1, 0])?;
    hand.ballot(3, &[0, 0, 0, 0, 0, 0, 0, 1, 0, 1, 1, 1])?;
    hand.ballot(4, &[0; 12])?;
    hand.look(0, 0x0001_0400_0000_0002)
}

/// Station 31 is at 623, ballot 63 at 1147, its marks at 1281. Bit 31 of a set is the highest of its first byte.
fn high_numbers(judge: &mut ImageJudge) -> Checked {
    let mut hand = hand(judge, &[(0, 3), (1, 32), (2, 2)]);
    let all = [(623, 1), (631, 255), (632, 255), (633, 255), (634, 255)];
    hand.event(Event::Claim { s: 31, v: u32::MAX }, 0, &all)?;
    hand.event(Event::Deliver { t: 31, s: 31 }, 0, &[(627, 0x80)])?;
    hand.event(Event::Deliver { t: 31, s: 0 }, 0, &[(7, 0x80)])?;
    hand.step(31, &[(623, 2), (625, 31)])?;
    hand.step(31, &[(623, 3), (647, 0x80)])?;
    // made up: it awaits ballot 63 with word and claim alike, and is answered 1
    [(623, 5), (626, 31), (635, 255), (636, 255), (637, 255), (638, 255)]
        .iter()
        .for_each(|(place, byte)| hand.image[*place] = *byte);
    hand.step(31, &[(623, 6), (1151, 0x80)])?;
    hand.event(Event::Answer { b: 63, a: 0 }, 12, &[])?;
    hand.event(Event::Answer { b: 64, a: 0 }, 9, &[])?;
    hand.event(Event::Answer { b: 63, a: 1 }, 0, &[(1281, 1), (1282, 1)])?;
    hand.event(Event::Answer { b: 63, a: 1 }, 0, &[])?;
    hand.event(Event::Answer { b: 63, a: 0 }, 11, &[])?;
    hand.step(31, &[(623, 7), (639, 255), (640, 255), (641, 255), (642, 255)])?;
    hand.ballot(63, &[0, 0, 0, 0, 0x80, 0, 0, 0, 0, 1, 1, 1])?;
    hand.no_ballot(64, 9)?;
    hand.look(31, 0x0001_4000_ffff_ffff)
}

/// Another length is seen before another version, and both before any other byte.
fn no_images(judge: &mut ImageJudge) -> Checked {
    for size in [0, 1, 3, 899, 1154, 1155, 1156, 1282, 1284, 2566] {
        [3, 2, 1, 0].into_iter().try_for_each(|byte| refused(judge, &vec![byte; size], 80))?;
    }
    // version 2 had 1,283 bytes too
    for version in [2, 0, 1, 4, 42, 255] {
        refused(judge, &image(&[(0, version), (1, 2), (2, 1)]), 81)?;
        refused(judge, &image(&[(0, version), (1, 33), (2, 3), (3, 8), (1282, 2)]), 81)?;
    }
    Ok(())
}

/// The head of two stations by station, and of two by claim.
const ONE: [Byte; 3] = [(0, 3), (1, 2), (2, 1)];
const TWO: [Byte; 3] = [(0, 3), (1, 2), (2, 2)];

fn with(head: [Byte; 3], bytes: &[Byte]) -> Vec<Byte> {
    [&head[..], bytes].concat()
}

/// Bytes that no record has, wherever they are; then 01's record test on both sides of each clause.
fn tests(judge: &mut ImageJudge) -> Checked {
    for faulty in [(3, 8), (3, 255), (4, 2), (4, 255), (623, 8), (624, 2)] {
        refused(judge, &image(&with(ONE, &[faulty])), 42)?;
    }
    sets_and_marks(judge)?;
    for faulty in [(5, 2), (25, 2), (25, 255), (3, 5), (3, 6), (2, 0), (2, 3)] {
        refused(judge, &image(&with(ONE, &[faulty])), 42)?;
    }
    for stage in [2, 3, 4] {
        refused(judge, &image(&with(ONE, &[(3, stage), (6, 1)])), 42)?;
        sound(judge, &with(ONE, &[(3, stage), (6, 0)]))?;
    }
    for stage in [2, 3, 4, 5, 6, 7] {
        refused(judge, &image(&with(TWO, &[(3, stage), (6, 32)])), 42)?;
        sound(judge, &with(TWO, &[(3, stage), (6, 31)]))?;
    }
    refused(judge, &image(&with(ONE, &[(1, 33)])), 42)?;
    refused(judge, &image(&with(ONE, &[(1, 255)])), 42)?;
    for free in [(5, 1), (25, 1), (45, 255), (43, 5), (6, 255), (623, 6), (1, 32), (1, 1)] {
        sound(judge, &with(ONE, &[free]))?;
    }
    [[(3, 1), (6, 255)], [(3, 7), (6, 255)], [(23, 7), (26, 9)]]
        .iter()
        .try_for_each(|free| sound(judge, &with(ONE, free)))
}

/// A set is any four bytes, the last of them at 1154; the marks, from 1155 to 1282, are 0 or 1.
fn sets_and_marks(judge: &mut ImageJudge) -> Checked {
    for place in 643..1155 {
        [2, 255].into_iter().try_for_each(|byte| sound(judge, &with(ONE, &[(place, byte)])))?;
    }
    for place in 1155..1283 {
        sound(judge, &with(ONE, &[(place, 1)]))?;
        [2, 255].into_iter().try_for_each(|byte| refused(judge, &image(&with(ONE, &[(place, byte)])), 42))?;
    }
    Ok(())
}

/// Awaiting ballot 63, marked at 1281, which is answered 0; with one round less it goes on. The sets of ballot 63 are at 1147 and 1151.
fn last_ballot(judge: &mut ImageJudge) -> Checked {
    hand(judge, &with(TWO, &[(3, 6), (6, 31), (1281, 1)])).event(STEP, 42, &[])?;
    hand(judge, &with(TWO, &[(3, 6), (6, 30), (1277, 1)])).event(STEP, 0, &[(3, 2), (6, 31)])?;
    hand(judge, &with(TWO, &[(3, 6), (6, 31), (1281, 1), (1282, 1)])).event(STEP, 0, &[(3, 7)])?;
    let bytes = with(TWO, &[(1147, 1), (1154, 3), (1281, 1), (1282, 1)]);
    hand(judge, &bytes).ballot(63, &[1, 0, 0, 0, 0, 0, 0, 3, 1, 2, 1, 1])
}

/// Made-up ballots: the set of 0 at 643, the set of 1 at 647, answered at 1155, the answer at 1156. An answer is accepted again whether
/// it was cast or not, and the other bit is 11 whether it was cast or not. Where none stands, the byte at 1156 says nothing.
fn repeats(judge: &mut ImageJudge) -> Checked {
    let one = Event::Answer { b: 0, a: 1 };
    for (zero, other) in [(0, 0), (1, 0), (0, 1), (2, 3)] {
        let cast = [(646, zero), (650, other)];
        for (answer, same, other) in [(0, ANSWER, one), (1, one, ANSWER)] {
            let mut hand = hand(judge, &with(ONE, &[&cast[..], &[(1155, 1), (1156, answer)]].concat()));
            hand.event(same, 0, &[])?;
            hand.event(other, 11, &[])?;
            hand.event(Event::Answer { b: 0, a: 2 }, 10, &[])?;
        }
    }
    for (cast, event) in [((646, 0), ANSWER), ((646, 0), one), ((646, 1), one), ((650, 1), ANSWER)] {
        hand(judge, &with(ONE, &[cast])).event(event, 12, &[])?;
        hand(judge, &with(ONE, &[cast, (1156, 1)])).event(event, 12, &[])?;
    }
    hand(judge, &with(ONE, &[(646, 1), (1156, 1)])).event(ANSWER, 0, &[(1155, 1), (1156, 0)])?;
    no_ballots(judge)
}

/// Ballot 1, marked at 1157, is answered 1: no ballot of two stations by station, nor where there are no stations.
fn no_ballots(judge: &mut ImageJudge) -> Checked {
    let next = Event::Answer { b: 1, a: 1 };
    for (head, number) in [(ONE, 9), ([(0, 3), (1, 0), (2, 2)], 9), (TWO, 0), ([(0, 3), (1, 33), (2, 2)], 42)] {
        hand(judge, &with(head, &[(1157, 1), (1158, 1)])).event(next, number, &[])?;
    }
    Ok(())
}

/// Votes by stage; the claim of a station that has not decided is 0. Then all stations at once.
fn looks(judge: &mut ImageJudge) -> Checked {
    for (stage, votes) in [(0, 0), (1, 0), (2, 2), (3, 3), (4, 3), (7, 3)] {
        let bytes = [(0, 3), (1, 8), (2, 1), (3, stage), (6, 2), (22, 9)];
        let decided = if stage == 7 { 0x0001_0000_0000_0009 } else { 0 };
        look(judge, &image(&bytes), 0, decided | votes << 40)?;
    }
    for (stage, votes) in [(0, 0), (1, 0), (2, 62), (3, 63), (4, 63), (5, 63), (6, 64), (7, 64)] {
        let bytes = with(TWO, &[(3, stage), (6, 31), (19, 9)]);
        let decided = if stage == 7 { 0x0001_0000_0900_0000 } else { 0 };
        look(judge, &image(&bytes), 0, decided | votes << 40)?;
    }
    let both = image(&with(ONE, &[(23, 7), (39, 1), (40, 2), (41, 3), (42, 4)]));
    let due = vec![0, 0, 0, 0, 0, 0, 0, 0, 0, 1, 1, 0, 1, 2, 3, 4];
    agree("LOOK at all", &both, Ok(due), crate::image::look_all(&both, 16))?;
    agree("LOOK at all", &both, Err(30), crate::image::look_all(&both, 15))?;
    [0, 1, 8, 15, 16, 17, 256].into_iter().try_for_each(|room| judge.look_all(&both, room))?;
    judge.look_all(&image(&[(0, 3), (1, 0), (2, 2)]), 0)
}

/// The sets of ballot 0 are at 643 and 647, answered at 1155, the answer at 1156: they are shown as they stand, but for an answer's byte
/// where there is no answer. Bits from n on are in the sets too, and such a bit counts as cast.
fn ballots(judge: &mut ImageJudge) -> Checked {
    let any = [(643, 0x80), (644, 1), (645, 0xff), (646, 3), (647, 0xff), (648, 0xff), (649, 0xff), (650, 0xff)];
    let sets = [0x80, 1, 0xff, 3, 0xff, 0xff, 0xff, 0xff, 12, 32];
    for (answered, answer, shown) in [(0, 0, [0, 0]), (0, 1, [0, 0]), (1, 0, [1, 0]), (1, 1, [1, 1])] {
        let bytes = [&any[..], &[(1155, answered), (1156, answer)]].concat();
        hand(judge, &with(ONE, &bytes)).ballot(0, &[&sets[..], &shown].concat())?;
    }
    for (place, a, other) in [(643, 0, 1), (646, 0, 1), (647, 1, 0), (650, 1, 0)] {
        let mut hand = hand(judge, &with(ONE, &[(place, 0x40)]));
        hand.event(Event::Answer { b: 0, a: other }, 12, &[])?;
        hand.event(Event::Answer { b: 0, a }, 0, &[(1155, 1), (1156, a)])?;
    }
    // no ballot, though its entry has votes: ballot 5 of 32 stations by station is at 683, ballot 1 of two at 651
    hand(judge, &[(0, 3), (1, 32), (2, 1), (686, 1)]).no_ballot(5, 9)?;
    hand(judge, &[(0, 3), (1, 32), (2, 1), (678, 1)]).ballot(4, &[0, 0, 0, 1, 0, 0, 0, 0, 1, 0, 0, 0])?;
    hand(judge, &with(ONE, &[(654, 1)])).no_ballot(1, 9)?;
    hand(judge, &[(0, 3), (1, 1), (2, 1), (646, 1)]).no_ballot(0, 9)?;
    hand(judge, &[(0, 3), (1, 0), (2, 2), (646, 1)]).no_ballot(0, 9)?;
    votes(judge)
}

/// Station 0 votes by station, its cursor at station 1: it casts 1. It is in the set of 1 from then on, whatever the sets were, and the set
/// of 0 stays. Then it is lost, and both sets stay.
fn votes(judge: &mut ImageJudge) -> Checked {
    for (zero, one, after) in [(0, 0, 1), (1, 0, 1), (3, 2, 3), (0, 1, 1), (0, 0xfe, 0xff)] {
        let bytes = [(3, 2), (5, 1), (646, zero), (650, one)];
        let mut hand = hand(judge, &with(ONE, &bytes));
        hand.step(0, &[(3, 3), (650, after)])?;
        hand.event(LOSE, 0, &[(4, 1)])?;
        let [zeros, ones] = [zero, after].map(|set: u8| set.count_ones() as u8);
        hand.ballot(0, &[0, 0, 0, zero, 0, 0, 0, after, zeros, ones, 0, 0])?;
    }
    Ok(())
}

/// The text of an image, its counts the caller's.
fn texts(judge: &mut ImageJudge) -> Checked {
    let bytes = image(&with(TWO, &[(3, 6), (4, 1), (6, 3), (23, 7), (26, 31), (39, 255), (42, 1)]));
    let text = judge.report(&bytes, Counts { events: usize::MAX, taken: 0, status: 255 })?;
    let due = "stations 2 rule 2 ballots 64 events 18446744073709551615 taken 0 status 255\n\
               0 awaiting - votes 8 lost\n1 decided 4278190081 votes 64 live\n";
    agree("a text", &bytes, due, &text)?;
    let none = image(&[(0, 3), (1, 0), (2, 2)]);
    let text = judge.report(&none, Counts { events: 1, taken: 2, status: 3 })?;
    agree("a text", &none, "stations 0 rule 2 ballots 0 events 1 taken 2 status 3\n", &text)
}

/// OPEN 2, 2; CLAIM 0 4; DELIVER 0 0; STEP 0, 0; ANSWER 0 0, and then it comes again, or the other bit does.
fn answered_twice(judge: &mut ImageJudge) -> Checked {
    let before =
        [1, 0, 2, 2, 2, 0x10, 0, 5, 0, 0, 0, 0, 4, 0x11, 0, 2, 0, 0, 0x12, 0, 1, 0, 0x12, 0, 1, 0, 0x14, 0, 2, 0, 0];
    let due = image(&with(TWO, &[(3, 3), (10, 1), (14, 4), (646, 1), (1155, 1)]));
    for (bit, limit, status) in [(0, 9, 0), (0, 6, 0), (0, 5, 26), (1, 9, 11), (1, 6, 11), (1, 5, 26), (2, 6, 10)] {
        let log = [&before[..], &[0x14, 0, 2, 0, bit]].concat();
        let (told, after) = judge.play(&log, limit, 1283)?;
        agree("RUN", &log, status, told)?;
        agree_bytes("RUN's image", &log, &due, &after)?;
    }
    Ok(())
}

/// OPEN 2, 1; CLAIM 1 9; LOSE 0; LOSE 0, as a log. No opening: the blank settlement.
fn logs(judge: &mut ImageJudge) -> Checked {
    let log = [1, 0, 2, 2, 1, 0x10, 0, 5, 1, 0, 0, 0, 9, 0x13, 0, 1, 0, 0x13, 0, 1, 0];
    let claimed = with(ONE, &[(23, 1), (34, 9)]);
    let lost = [&claimed[..], &[(4, 1)]].concat();
    for (log, limit, status, bytes) in [
        (&log[..], usize::MAX, 2, &lost),
        (&log, 2, 26, &lost),
        (&log[..17], 2, 0, &lost),
        (&log, 1, 26, &claimed),
        (&log[..5], 0, 0, &ONE.to_vec()),
        (&log[..4], 0, 23, &vec![(0, 3), (2, 1)]),
        (&log[5..], 9, 24, &vec![(0, 3), (2, 1)]),
        (&[], 9, 20, &vec![(0, 3), (2, 1)]),
    ] {
        let (told, after) = judge.play(log, limit, 1283)?;
        agree("RUN", log, status, told)?;
        agree_bytes("RUN's image", log, &image(bytes), &after)?;
    }
    [0, 899, 1155, 1282, 1284].into_iter().try_for_each(|size| judge.play(&log, 9, size).map(drop))
}
