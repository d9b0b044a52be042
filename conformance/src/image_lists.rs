//! A list of events on one image, beside the same list as a log and beside its history.

use crate::image::BYTES;
use crate::image_judge::ImageJudge;
use crate::judge::{same, same_bytes, Checked};
use crate::log::{self, Counts, Field};
use crate::model::{Event, Play};
use crate::record::Look;
use crate::text;
use crate::voters;

/// A list that is played from an opening over some bytes: the image, the history, the log of what was accepted.
pub struct List {
    image: Vec<u8>,
    play: Play,
    log: Vec<u8>,
    events: usize,
}

impl List {
    pub fn open(judge: &mut ImageJudge, over: &[u8], n: u8, rule: u8) -> Result<List, String> {
        let play = Play::open(n, rule).map_err(|number| format!("OPEN gives {number}"))?;
        let image = judge.open(over, n, rule)?;
        Ok(List { image, play, log: log::written(n, rule, &[]), events: 0 })
    }

    /// One event: its number is the history's, and so is all that is told of the image, where it is told.
    pub fn event(&mut self, judge: &mut ImageJudge, event: Event, told: bool) -> Checked {
        let due = self.play.event(event);
        let (number, after) = judge.event(&self.image, event)?;
        same("the event's number, by the history", &self.image, due, number)?;
        self.image = after;
        let start = self.log.len();
        self.log.extend(Field::Event(event).bytes());
        let taken = if number == 0 { self.log.len() } else { start };
        self.events += usize::from(number == 0);
        if told {
            self.is_told(judge, Counts { events: self.events, taken, status: number })?;
        }
        self.log.truncate(taken);
        Ok(())
    }

    fn is_told(&self, judge: &mut ImageJudge, counts: Counts) -> Checked {
        (0..self.play.n).try_for_each(|s| judge.look_told(&self.image, s, self.look(s)))?;
        judge.look_all(&self.image, 8 * usize::from(self.play.n))?;
        (0..=self.voted()).try_for_each(|b| judge.ballot_told(&self.image, b, voters::told(&self.play, b)))?;
        let text = judge.report(&self.image, counts)?;
        same("the report, by the history", &self.log, text::report(Some(&self.play), counts), text)?;
        self.as_a_log(judge, usize::MAX, counts.status)?;
        match counts.taken < self.log.len() {
            true => self.as_a_log(judge, self.events, 26),
            false => self.as_a_log(judge, self.events, 0),
        }
    }

    /// In how many ballots some station voted.
    fn voted(&self) -> u8 {
        (0..self.play.n).map(|s| self.play.voted(s).len()).max().unwrap_or(0) as u8
    }

    /// How many stations have decided.
    pub fn deciders(&self) -> usize {
        (0..self.play.n).filter(|s| self.play.decision(*s).is_some()).count()
    }

    /// LOOK by the history.
    fn look(&self, s: u8) -> Look {
        let decision = self.play.decision(s);
        let votes = self.play.voted(s).len() as u8;
        Look { number: 0, decided: decision.is_some(), claim: decision.unwrap_or(0), votes }
    }

    /// RUN of the log has this status, and leaves the very same bytes.
    fn as_a_log(&self, judge: &mut ImageJudge, limit: usize, due: u8) -> Checked {
        let (status, image) = judge.play(&self.log, limit, BYTES)?;
        same("the log's status", &self.log, due, status)?;
        same_bytes("the list's image and the log's", &self.log, &self.image, &image)
    }
}
