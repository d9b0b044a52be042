//! Two logs made one; and where they cannot be, what is wrong with which.

use std::iter::Peekable;

use crate::bytes;
use crate::field::Field;
use crate::log::Fields;
use crate::refusal::Refusal;
use crate::settlement::Settlement;

/// MERGE: one log out of two with the same opening, of kiosks that each record their own stations. The opening once, then
/// the events of both, without notes. Each log's own order is kept: wherever the first log's next event is accepted it
/// goes next, else the second log's.
///
/// Refused: the number of the first log's fault ([`fault`]), whatever its events do; then of the second log's. Then 60
/// where the openings differ; 61 where a station has events in both ([`station_in_both`]); 62 exactly where no order that
/// keeps both logs' own is accepted whole ([`stuck`]).
///
/// ```
/// use dagmuize::{merge, Field, Log, Settlement};
/// let log = |fields: &[Field]| {
///     let mut log = Log::new();
///     fields.iter().for_each(|field| log.put(field).expect("no long note"));
///     log
/// };
/// let opening = Field::Open { n: 2, rule: 1 };
/// // station 0 receives what station 1 claims on the other floor
/// let mut first = log(&[opening.clone(), Field::Claim { s: 0, v: 401 }, Field::Deliver { t: 1, s: 0 }]);
/// let second = log(&[opening.clone(), Field::Claim { s: 1, v: 402 }]);
/// let one = merge(first.as_bytes(), second.as_bytes())?;
/// assert_eq!(Settlement::play(&one, usize::MAX).status(), 0);
///
/// // or in place
/// first.merge(second.as_bytes())?;
/// assert_eq!(first.as_bytes(), one);
/// assert_eq!(first.merge(second.as_bytes()).unwrap_err().number(), 61);
/// # Ok::<(), dagmuize::Refusal>(())
/// ```
pub fn merge(first: &[u8], second: &[u8]) -> Result<Vec<u8>, Refusal> {
    let mut out = vec![0; first.len() + second.len()];
    let answer = bytes::merge(first, second, &mut out);
    // the highest byte is the number, and the count is at most that of the room
    Refusal::unless_accepted((answer >> 56) as u8)?;
    out.truncate((answer & ((1 << 56) - 1)) as usize);
    out.shrink_to_fit();
    Ok(out)
}

/// A log's earliest fault in reading, and the byte where its field begins: 20 to 23 for a field that does not read, 24 for
/// a first one that is no opening, 40 and 41 for one that does not open, 25 for a second opening. Events are not played.
///
/// ```
/// use dagmuize::merging::fault;
/// // nobody has put in a claim, and the log reads
/// assert_eq!(fault(b"\x01\0\x02\x02\x01\x12\0\x01\x00"), None);
/// let (place, refusal) = fault(b"\x01\0\x02\x02\x01\x12\0\x01\x00\x99\0\0").unwrap();
/// assert_eq!((place, refusal.number()), (9, 21));
/// ```
pub fn fault(log: &[u8]) -> Option<(usize, Refusal)> {
    match bytes::status(log, 0) {
        // at limit 0 RUN takes the opening, and 26 says that there is more
        0 | 26 => Fields::of(log).skip(1).find_map(|(place, read)| Some((place, later_fault(read)?))),
        number => Refusal::of(number).map(|refusal| (0, refusal)),
    }
}

/// What is wrong with a field after the opening.
fn later_fault(read: Result<Field, Refusal>) -> Option<Refusal> {
    match read {
        Ok(Field::Open { .. }) => Refusal::of(25),
        Ok(_) => None,
        Err(refusal) => Some(refusal),
    }
}

/// The lowest station number, existing or not, that has events in both logs: [`Field::owner`] says whose an event is. A log
/// counts up to its first field that does not read.
pub fn station_in_both(first: &[u8], second: &[u8]) -> Option<u8> {
    let (one, two) = (stations(first), stations(second));
    (0..=u8::MAX).find(|s| one[usize::from(*s)] && two[usize::from(*s)])
}

/// Which station numbers have events in a log.
fn stations(log: &[u8]) -> [bool; 256] {
    let mut has = [false; 256];
    events(log).filter_map(|(_, event)| event.owner()).for_each(|s| has[usize::from(s)] = true);
    has
}

/// Where two logs with the same opening cannot go on. Their events are played as [`merge`] plays them, until both end or
/// neither's next is accepted; then, for each log, the byte of its next event and why that is refused, or none at its end.
pub fn stuck(first: &[u8], second: &[u8]) -> [Option<(usize, Refusal)>; 2] {
    // the opening alone
    let mut settlement = Settlement::play(first, 0).settlement;
    let (mut one, mut two) = (events(first).peekable(), events(second).peekable());
    while goes_on(&mut settlement, &mut one) || goes_on(&mut settlement, &mut two) {}
    [one.next(), two.next()].map(|next| {
        let (place, event) = next?;
        Some((place, play(&mut settlement, &event).err()?))
    })
}

/// Plays the next event, unless there is none or it is refused.
fn goes_on(settlement: &mut Settlement, events: &mut Peekable<impl Iterator<Item = (usize, Field)>>) -> bool {
    events.next_if(|(_, event)| play(settlement, event).is_ok()).is_some()
}

/// The events of a log with the places where they begin, up to a field that does not read.
fn events(log: &[u8]) -> impl Iterator<Item = (usize, Field)> + '_ {
    let fields = Fields::of(log).map_while(|(place, read)| Some((place, read.ok()?)));
    fields.filter(|(_, field)| !matches!(field, Field::Open { .. } | Field::Note(_)))
}

/// One event on a settlement; what is no event changes nothing.
fn play(settlement: &mut Settlement, event: &Field) -> Result<(), Refusal> {
    match *event {
        Field::Claim { s, v } => settlement.claim(s, v),
        Field::Deliver { t, s } => settlement.deliver(t, s),
        Field::Step { s } => settlement.step(s),
        Field::Lose { s } => settlement.lose(s),
        Field::Answer { b, a } => settlement.answer(b, a),
        Field::Open { .. } | Field::Note(_) => Ok(()),
    }
}

#[cfg(test)]
mod tests {
    use super::*;
    use crate::Log;

    fn log(lines: &str) -> Vec<u8> {
        let mut log = Log::new();
        lines.split(';').for_each(|line| log.put(&line.parse().expect("a field")).expect("no long note"));
        log.into_bytes()
    }

    fn words(log: &[u8]) -> String {
        let words: Vec<String> = Fields::of(log).map(|(_, field)| field.expect("it reads").to_string()).collect();
        words.join(";")
    }

    /// The one log of two, in words.
    fn merged(first: &str, second: &str) -> String {
        words(&merge(&log(first), &log(second)).expect("they are made one"))
    }

    fn number(first: &[u8], second: &[u8]) -> u8 {
        merge(first, second).expect_err("it is refused").number()
    }

    /// The number of two logs in words.
    fn refused(first: &str, second: &str) -> u8 {
        number(&log(first), &log(second))
    }

    const VOTES: &str = "claim 0 7;deliver 0 0;step 0;step 0";

    #[test]
    fn the_first_log_goes_next_where_it_is_accepted() {
        assert_eq!(merged("open 2 1", "open 2 1"), "open 2 1");
        assert_eq!(merged("open 2 1;lose 0", "open 2 1;lose 1"), "open 2 1;lose 0;lose 1");
        assert_eq!(merged("open 2 1;lose 1", "open 2 1;lose 0"), "open 2 1;lose 1;lose 0");
        assert_eq!(merged("open 2 1", "open 2 1;claim 0 7;lose 0"), "open 2 1;claim 0 7;lose 0");
        // it waits for a claim of the second log, and is next once that is there
        let one = merged("open 3 1;deliver 1 0;lose 0", "open 3 1;claim 2 8;claim 1 9;lose 1;lose 2");
        assert_eq!(one, "open 3 1;claim 2 8;claim 1 9;deliver 1 0;lose 0;lose 1;lose 2");
        // each waits for the other, in turn
        let one = merged("open 2 1;claim 0 7;deliver 1 0;lose 0", "open 2 1;deliver 0 1;claim 1 9;lose 1");
        assert_eq!(one, "open 2 1;claim 0 7;deliver 0 1;claim 1 9;deliver 1 0;lose 0;lose 1");
    }

    #[test]
    fn an_answer_is_nobodys_and_may_be_in_both() {
        let one = merged(&format!("open 2 1;{VOTES};answer 0 0;step 0"), "open 2 1;answer 0 0;claim 1 9");
        assert_eq!(one, format!("open 2 1;{VOTES};answer 0 0;step 0;answer 0 0;claim 1 9"));
        // the second log's answer waits for a vote, and then the first log's is the repeat
        let one = merged(&format!("open 2 1;{VOTES};step 0;answer 0 0"), "open 2 1;answer 0 0");
        assert_eq!(one, format!("open 2 1;{VOTES};answer 0 0;step 0;answer 0 0"));
        let other = "open 2 1;claim 1 9;deliver 1 1;step 1;step 1;answer 0 1";
        assert_eq!(refused(&format!("open 2 1;{VOTES};answer 0 0"), other), 62);
    }

    #[test]
    fn every_byte_of_the_buffer_is_accounted_for() {
        let first = [1, 0, 2, 2, 1, 0x30, 0, 1, 97, 0x10, 0, 5, 0, 0, 0, 0, 7, 0x30, 0, 0];
        let second = [1, 0, 2, 2, 1, 0x30, 0, 2, 1, 1, 0x11, 0, 2, 0, 1, 0x13, 0, 1, 1];
        let merge = |first: &[u8], second: &[u8], room: usize| {
            let mut out = [9; 24];
            let answer = bytes::merge(first, second, &mut out[..room]);
            (answer, out)
        };
        let written = [1, 0, 2, 2, 1, 0x10, 0, 5, 0, 0, 0, 0, 7, 0x11, 0, 2, 0, 1, 0x13, 0, 1, 1, 9, 9];
        assert_eq!([merge(&first, &second, 22), merge(&first, &second, 24)], [(22, written); 2]);
        assert_eq!([merge(&first, &second, 21), merge(&first, &second, 0)], [(30 << 56, [9; 24]); 2]);
        // 30 is the last test
        assert_eq!(merge(&first[..2], &second, 0), (20 << 56, [9; 24]));
        assert_eq!(merge(&first, &second[..18], 0), (23 << 56, [9; 24]));
        assert_eq!(merge(&first, &first, 0), (61 << 56, [9; 24]));
        assert_eq!(merge(&first[..5], &second, 0), (62 << 56, [9; 24]));
        assert_eq!(merge(&first[..5], &second[..5], 4), (30 << 56, [9; 24]));
        assert_eq!(merge(&first[..5], &second[..5], 5).0, 5);
    }

    /// Logs that do not read, with the byte and the number. Where there is an event, it is refused.
    fn faulty() -> Vec<(Vec<u8>, usize, u8)> {
        let then = |more: &[u8]| [&log("open 2 1;step 0")[..], more].concat();
        vec![
            (Vec::new(), 0, 20),
            (vec![1, 0, 2, 2], 0, 23),
            (log("note \"hi\";open 2 1"), 0, 24),
            (log("step 0;open 33 1"), 0, 24),
            (log("open 0 3"), 0, 40),
            (log("open 33 1;open 2 1"), 0, 40),
            (log("open 2 3;note \"hi\""), 0, 41),
            (then(&[0x12, 0]), 9, 20),
            (then(&[0x15, 0, 2, 0, 2]), 9, 21),
            (then(&[0x12, 0, 2, 0, 0]), 9, 22),
            (then(&[0x30, 0, 3, 0, 0]), 9, 23),
            (log("open 2 1;lose 9;note \"hi\";open 2 1"), 14, 25),
            // the earliest field decides
            ([then(&log("open 2 1")), vec![0x15, 0, 0]].concat(), 9, 25),
            ([then(&[0x15, 0, 0]), log("open 2 1")].concat(), 9, 21),
        ]
    }

    #[test]
    fn the_first_logs_fault_comes_before_the_seconds_and_both_before_all_else() {
        for (log, place, number) in faulty() {
            let found = fault(&log).map(|(place, refusal)| (place, refusal.number()));
            assert_eq!(found, Some((place, number)), "{log:?}");
        }
        let fine = log("open 3 2;step 0");
        assert_eq!((fault(&fine), fault(&log("open 1 1;answer 99 9;note \"hi\""))), (None, None));
        for (first, _, one) in faulty() {
            assert_eq!((number(&first, &fine), number(&fine, &first)), (one, one), "{first:?}");
            for (second, ..) in faulty() {
                assert_eq!(number(&first, &second), one, "{first:?} and {second:?}");
            }
        }
    }

    #[test]
    fn then_come_60_61_and_62() {
        assert_eq!(refused("open 2 1;lose 0", "open 3 1;lose 0"), 60);
        assert_eq!(refused("open 2 1;step 0", "open 2 2"), 60);
        assert_eq!(refused("open 2 1;lose 0", "open 2 1;note \"hi\";lose 0"), 61);
        assert_eq!(refused("open 2 1;claim 1 7;step 0", "open 2 1;claim 0 7;lose 1"), 61);
        // the receiver's, not the sender's; a station that does not exist counts
        assert_eq!(refused("open 2 1;deliver 1 0", "open 2 1;claim 1 9;step 0"), 61);
        assert_eq!(merged("open 2 1;deliver 1 0", "open 2 1;claim 1 9"), "open 2 1;claim 1 9;deliver 1 0");
        assert_eq!(
            [refused("open 2 1;lose 255", "open 2 1;deliver 0 255"), refused("open 2 1;lose 255", "open 2 1")],
            [61, 62]
        );
        // neither can begin, or the rest of one is refused
        assert_eq!(refused("open 2 1;deliver 1 0;claim 0 7", "open 2 1;deliver 0 1;claim 1 9"), 62);
        assert_eq!(
            [refused("open 2 1;step 0", "open 2 1"), refused("open 2 1;lose 1", "open 2 1;lose 0;lose 0")],
            [62; 2]
        );
    }

    #[test]
    fn which_station_and_where_they_are_stuck_is_found() {
        let both = |first: &str, second: &str| station_in_both(&log(first), &log(second));
        assert_eq!(both("open 2 1;lose 9;step 8;deliver 1 7", "open 2 1;claim 8 1;lose 9;lose 1"), Some(8));
        assert_eq!(both("open 2 1;answer 0 1", "open 2 1;answer 0 1"), None);
        let stuck = |first: &str, second: &str| {
            stuck(&log(first), &log(second)).map(|at| at.map(|(place, refusal)| (place, refusal.number())))
        };
        assert_eq!(stuck("open 2 1;deliver 1 0", "open 2 1;claim 1 9"), [None, None]);
        assert_eq!(stuck("open 2 1;lose 1;note \"hi\"", "open 2 1;lose 0;note \"\";lose 0"), [None, Some((12, 2))]);
        let each = stuck("open 2 1;note \"\";deliver 1 0;claim 0 7", "open 2 1;lose 1;deliver 0 1;claim 1 9");
        assert_eq!(each, [Some((8, 4)), Some((9, 2))]);
    }

    #[test]
    fn a_log_that_is_not_merged_stays() {
        let mut kept = Log::new();
        kept.put(&Field::Open { n: 2, rule: 1 }).expect("an opening");
        kept.put(&Field::Note(vec![7])).expect("a short note");
        for (second, number) in [("open 2 2", 60), ("open 2 1;step 0", 62), ("step 0", 24)] {
            let before = kept.clone();
            assert_eq!((kept.merge(&log(second)).map_err(Refusal::number), &kept), (Err(number), &before));
        }
        assert_eq!((kept.merge(&log("open 2 1;lose 1")), kept.as_bytes()), (Ok(()), &log("open 2 1;lose 1")[..]));
    }
}
