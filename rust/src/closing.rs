//! The closing log of a log.

use crate::bytes::{self, CLOSING_BYTES};
use crate::refusal::Refusal;

/// CLOSE: events that, after a log, bring every live station that has claimed to its decision. A ballot that is without an
/// answer gets the preferred bit if some station cast it, else the other bit. Idle and lost stations stay as they are.
///
/// Refused: the number of what stops the log before its end; then 10 for a preferred bit above 1.
///
/// ```
/// use dagmuize::{closing, Field, Log, Settlement};
/// let mut log = Log::new();
/// log.put(&Field::Open { n: 2, rule: 1 })?;
/// log.put(&Field::Claim { s: 0, v: 401 })?;
/// log.put(&Field::Claim { s: 1, v: 402 })?;
/// let rest = closing(log.as_bytes(), 1)?;
/// let whole = [log.as_bytes(), &rest].concat();
/// let standings = Settlement::play(&whole, usize::MAX).settlement.look_all()?;
/// // station 1's number is the bit 1
/// assert!(standings.iter().all(|standing| standing.decided == Some(402)));
///
/// // or at once, with the other bit
/// log.close(0)?;
/// assert_eq!(Settlement::play(log.as_bytes(), usize::MAX).settlement.look(1)?.decided, Some(401));
/// # Ok::<(), dagmuize::Refusal>(())
/// ```
pub fn closing(log: &[u8], preferred: u8) -> Result<Vec<u8>, Refusal> {
    let mut out = vec![0; CLOSING_BYTES];
    let answer = bytes::close(log, usize::MAX, preferred, &mut out);
    // a number has one byte, and the count is at most that of the room
    Refusal::unless_accepted((answer >> 32) as u8)?;
    out.truncate((answer & 0xffff_ffff) as usize);
    out.shrink_to_fit();
    Ok(out)
}

#[cfg(test)]
mod tests {
    use super::*;
    use crate::{Field, Fields, Log, Settlement};

    fn log(lines: &str) -> Vec<u8> {
        let mut log = Log::new();
        lines.split(';').for_each(|line| log.put(&line.parse().expect("a field")).expect("no note"));
        log.into_bytes()
    }

    fn words(log: &[u8]) -> String {
        let words: Vec<String> = Fields::of(log).map(|(_, field)| field.expect("it reads").to_string()).collect();
        words.join(";")
    }

    fn number(log: &[u8], preferred: u8) -> u8 {
        closing(log, preferred).expect_err("it is refused").number()
    }

    #[test]
    fn the_events_are_those_of_the_document() {
        let closed = |lines: &str, preferred: u8| words(&closing(&log(lines), preferred).expect("it plays to its end"));
        assert_eq!(closed("open 1 1", 1), "");
        assert_eq!(closed("open 1 1;claim 0 5", 1), "deliver 0 0;step 0");
        assert_eq!(closed("open 1 1;claim 0 5;deliver 0 0;step 0", 1), "");
        let two = "deliver 0 0;step 0;deliver 1 1;deliver 0 1;step 1;deliver 1 0;step 0;step 1";
        let claims = "open 2 1;claim 0 7;claim 1 9";
        assert_eq!(closed(claims, 1), format!("{two};answer 0 1;step 0;step 1;step 0;step 1;step 1"));
        assert_eq!(closed(claims, 0), format!("{two};answer 0 0;step 0;step 1;step 0;step 1;step 0"));
        // nobody casts 1, and nobody holds the lost one's claim
        let alone = "deliver 0 0;step 0;step 0;answer 0 0;step 0;step 0;step 0";
        assert_eq!(closed("open 2 1;claim 0 7;claim 1 9;lose 1", 1), alone);
    }

    #[test]
    fn a_log_that_stops_is_refused_with_its_number_and_then_a_bit_above_1() {
        let fine = log("open 2 1;claim 0 7");
        assert_eq!([number(&[], 1), number(&log("step 0"), 2), number(&log("open 33 1"), 0)], [20, 24, 40]);
        assert_eq!([number(&log("open 2 1;step 0"), 2), number(&fine[..12], 1)], [6, 23]);
        assert_eq!([number(&fine, 2), number(&fine, 255)], [10; 2]);
        let mut kept = Log::new();
        kept.put(&Field::Open { n: 2, rule: 1 }).expect("an opening");
        let before = kept.clone();
        assert_eq!((kept.close(2).map_err(Refusal::number), &kept), (Err(10), &before));
        kept.put(&Field::Step { s: 0 }).expect("a step");
        let before = kept.clone();
        assert_eq!((kept.close(1).map_err(Refusal::number), &kept), (Err(6), &before));
    }

    #[test]
    fn every_byte_of_the_buffer_is_accounted_for() {
        let log = log("open 1 1;claim 0 5");
        let close = |limit: usize, preferred: u8, room: usize| {
            let mut out = [7; 11];
            let answer = bytes::close(&log, limit, preferred, &mut out[..room]);
            (answer, out)
        };
        let written = [0x11, 0, 2, 0, 0, 0x12, 0, 1, 0, 7, 7];
        assert_eq!([close(1, 1, 9), close(9, 0, 11)], [(9, written); 2]);
        assert_eq!([close(1, 1, 8), close(1, 1, 0)], [(30 << 32, [7; 11]); 2]);
        assert_eq!([close(1, 2, 0), close(1, 255, 11)], [(10 << 32, [7; 11]); 2]);
        assert_eq!(close(0, 2, 0), (26 << 32, [7; 11]));
    }

    /// 32 stations by claim: only the last one's claim fits ballot 0's answer 1, so the others seek far.
    #[test]
    fn the_room_is_enough_for_32_stations() {
        let claims: Vec<String> = (0..32).map(|s| format!(";claim {s} {}", u32::MAX - u32::from(s < 31))).collect();
        let log = log(&format!("open 32 2{}", claims.concat()));
        let closing = closing(&log, 1).expect("it plays to its end");
        assert_eq!(closing.len(), 151_040);
        let standings = Settlement::play(&[log, closing].concat(), usize::MAX).settlement.look_all();
        assert!(standings.expect("it is opened").iter().all(|standing| standing.decided == Some(u32::MAX)));
    }
}
