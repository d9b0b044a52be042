//! A whole log played.

use crate::bytes::{self, IMAGE_BYTES};
use crate::refusal::Refusal;
use crate::settlement::Settlement;

/// What RUN answers.
#[derive(Clone, Debug, PartialEq, Eq)]
pub struct Played {
    /// The settlement that the log played to; the blank one, without stations, where the opening is refused.
    pub settlement: Settlement,
    /// The events played.
    pub events: usize,
    /// The bytes taken: they end before the field that stopped it.
    pub taken: usize,
    /// What stopped it before the log's end, if anything did.
    pub stopped: Option<Refusal>,
}

impl Settlement {
    /// RUN: plays at most `limit` events of a log from its opening on. The log is played three times.
    ///
    /// ```
    /// let log = b"\x01\0\x02\x01\x01\x10\0\x05\0\0\0\0\x05\x12\0\x01\0";
    /// let played = dagmuize::Settlement::play(log, 65_536);
    /// assert_eq!((played.events, played.taken), (1, 13));
    /// assert_eq!(played.stopped.unwrap().number(), 8);
    /// ```
    pub fn play(log: &[u8], limit: usize) -> Played {
        let mut image = [0; IMAGE_BYTES];
        let stopped = Refusal::of(bytes::play(log, limit, &mut image));
        let (events, taken) = (bytes::events(log, limit), bytes::taken(log, limit));
        Played { settlement: Settlement::of_image(image), events, taken, stopped }
    }
}

impl Played {
    /// The status: 0, or the number of what stopped it.
    pub fn status(&self) -> u8 {
        self.stopped.map_or(0, Refusal::number)
    }

    /// The text of `./settle` for the log, at whatever length it has.
    pub fn report(&self) -> String {
        self.settlement.report(self.events, self.taken, self.status())
    }
}

#[cfg(test)]
mod tests {
    use super::*;

    #[test]
    fn a_log_whose_opening_is_refused_plays_to_the_blank_settlement() {
        let played = Settlement::play(&[1, 0, 2, 33, 1], 9);
        assert_eq!((played.events, played.taken, played.status()), (0, 0, 40));
        assert_eq!(played.report(), "stations 0 rule 1 ballots 0 events 0 taken 0 status 40\n");
        assert_eq!(played.settlement.look_all(), Ok(Vec::new()));
        assert_eq!(Settlement::from_bytes(&played.settlement.to_bytes()), Ok(played.settlement));
    }

    #[test]
    fn the_limit_is_kept() {
        let log = [1, 0, 2, 1, 1, 0x13, 0, 1, 0];
        assert_eq!(Settlement::play(&log, 0).status(), 26);
        assert_eq!((Settlement::play(&log, 1).status(), Settlement::play(&log, 1).events), (0, 1));
    }
}
