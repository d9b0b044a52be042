//! Compares a subject's operations on images with those of `image.rs`, and counts the numbers that were met.

use crate::again::{self, Met};
use crate::guarded::Guarded;
use crate::image;
use crate::images::Images;
use crate::judge::{same, Checked};
use crate::log::Counts;
use crate::model::Event;
use crate::record::{Look, Tally};
use crate::voters;
use std::collections::BTreeMap;

/// The operations, and the numbers that each has to meet.
pub const DUE: [(&str, &[u8]); 11] = [
    ("open", &[0, 40, 41, 80]),
    ("claim", &[0, 1, 2, 3, 42, 80, 81]),
    ("deliver", &[0, 1, 2, 4, 5, 42, 80, 81]),
    ("step", &[0, 1, 2, 6, 7, 8, 42, 80, 81]),
    ("lose", &[0, 1, 2, 42, 80, 81]),
    ("answer", &[0, 9, 10, 11, 12, 42, 80, 81]),
    ("look", &[0, 1, 42, 80, 81]),
    ("look all", &[0, 30, 42, 80, 81]),
    ("ballot", &[0, 9, 30, 42, 80, 81]),
    ("report", &[0, 42, 80, 81]),
    ("play", &[0, 1, 2, 3, 4, 5, 6, 7, 8, 9, 10, 11, 12, 20, 21, 22, 23, 24, 25, 26, 40, 41, 80]),
];

/// Each of them so often at least.
pub const LEAST: usize = 1000;

/// A stage or a mark that does not exist; STEP's own 42.
const NO_SUCH_BYTE: &str = "a stage or a mark that does not exist";
const LAST_BALLOT: &str = "taking answer 0 from ballot 63";

/// What may be in a buffer before RUN writes an image there: no image, or, where it is long enough for one, the image of two stations.
fn stood(size: usize) -> [Vec<u8>; 2] {
    let junk: Vec<u8> = (0..size).map(|i| (i * 91 + 5) as u8).collect();
    let image = image::open(&junk, 2, 1).1;
    [junk, image]
}

pub struct ImageJudge<'a> {
    pub subject: &'a dyn Images,
    counts: BTreeMap<(&'static str, u8), usize>,
    /// Why each 42.
    pub faults: BTreeMap<&'static str, usize>,
    /// Answers that came twice, and the logs with one that were played.
    pub again: Met,
    pub logs_again: usize,
    /// Ballots that were looked at, votes and answers, by their sorts.
    pub voters: Met,
    pub too_small: usize,
    /// LOOKs beside a history, and looks at a ballot.
    pub histories: usize,
    pub tallies: usize,
    /// Lists in which two or more stations decided.
    pub shared: usize,
}

fn name(event: Event) -> &'static str {
    match event {
        Event::Claim { .. } => "claim",
        Event::Deliver { .. } => "deliver",
        Event::Step { .. } => "step",
        Event::Lose { .. } => "lose",
        Event::Answer { .. } => "answer",
    }
}

/// Which words of document 01, or of the image's table, a 42 goes by.
fn why_42(image: &[u8]) -> &'static str {
    match image::decode(image) {
        Ok(record) => record.fault().unwrap_or(LAST_BALLOT),
        Err(_) => NO_SUCH_BYTE,
    }
}

impl<'a> ImageJudge<'a> {
    pub fn new(subject: &'a dyn Images) -> ImageJudge<'a> {
        ImageJudge {
            subject,
            counts: BTreeMap::new(),
            faults: BTreeMap::new(),
            again: Met::default(),
            logs_again: 0,
            voters: Met::default(),
            too_small: 0,
            histories: 0,
            tallies: 0,
            shared: 0,
        }
    }

    fn count(&mut self, operation: &'static str, number: u8, image: &[u8]) {
        *self.counts.entry((operation, number)).or_default() += 1;
        if number == image::FAULTY {
            *self.faults.entry(why_42(image)).or_default() += 1;
        }
    }

    /// An event by its number, and a vote and an answer by their sorts.
    fn count_event(&mut self, image: &[u8], after: &[u8], event: Event, number: u8) {
        self.count(name(event), number, image);
        if let (Ok(before), Ok(after)) = (image::decode(image), image::decode(after)) {
            self.again.add(again::on_record(&before, event, number));
            let sorts = if number == 0 { voters::played(&before, &after, event) } else { Vec::new() };
            self.voters.add(sorts);
        }
    }

    /// OPEN over these bytes: the bytes afterwards.
    pub fn open(&mut self, image: &[u8], n: u8, rule: u8) -> Result<Vec<u8>, String> {
        let (number, after) = image::open(image, n, rule);
        let mut lent = Guarded::of(image);
        let answer = self.subject.open(lent.lent(), n, rule);
        self.count("open", number, image);
        same("OPEN's number", &[n, rule], number, answer)?;
        lent.holds("OPEN's image", &[n, rule], &after)?;
        Ok(after)
    }

    /// An event: its number, and the bytes afterwards.
    pub fn event(&mut self, image: &[u8], event: Event) -> Result<(u8, Vec<u8>), String> {
        let (number, after) = image::event(image, event);
        let mut lent = Guarded::of(image);
        let answer = self.subject.event(lent.lent(), event);
        self.count_event(image, &after, event, number);
        same("its number", image, number, answer)
            .and_then(|()| lent.holds("the image afterwards", image, &after))
            .map_err(|why| format!("{event:?}: {why}"))?;
        Ok((number, after))
    }

    /// LOOK at a station that may not be there.
    pub fn look(&mut self, image: &[u8], s: u8) -> Checked {
        let expected = image::look(image, s);
        self.count("look", expected[0], image);
        self.looked(image, s, expected)
    }

    /// LOOK's answer where the history says what it is.
    pub fn look_told(&mut self, image: &[u8], s: u8, told: Look) -> Checked {
        self.histories += 1;
        self.looked(image, s, image::look_bytes(told))
    }

    fn looked(&mut self, image: &[u8], s: u8, expected: [u8; 8]) -> Checked {
        let mut lent = Guarded::of(image);
        let answer = self.subject.look(lent.lent(), s);
        same("LOOK", image, expected, answer.to_be_bytes())
            .and_then(|()| lent.holds("the image that was looked at", image, image))
            .map_err(|why| format!("station {s}: {why}"))
    }

    /// LOOK at every station, into a room of so many bytes.
    pub fn look_all(&mut self, image: &[u8], room: usize) -> Checked {
        let model = image::look_all(image, room);
        let number = model.as_ref().err().copied().unwrap_or(0);
        let written = model.unwrap_or_default();
        self.count("look all", number, image);
        let (mut lent, mut out) = (Guarded::of(image), Guarded::unwritten(room));
        let answer = self.subject.look_all(lent.lent(), out.lent());
        same("LOOK at all", image, 65_536 * u32::from(number) + written.len() as u32, answer)?;
        out.begins("what LOOK at all wrote", image, &written)?;
        lent.holds("the image that was looked at", image, image)
    }

    /// A look at a ballot, into a room of so many bytes.
    pub fn look_ballot(&mut self, image: &[u8], b: u8, room: usize) -> Checked {
        let model = image::look_ballot(image, b, room);
        self.count("ballot", model.as_ref().err().copied().unwrap_or(0), image);
        if let (Ok(_), Ok(record)) = (&model, image::decode(image)) {
            self.voters.add(voters::looked_at(&record, b));
        }
        self.tallied(image, b, room, model)
    }

    /// A look at a ballot where the history says what it is, into a room of just its bytes.
    pub fn ballot_told(&mut self, image: &[u8], b: u8, told: Tally) -> Checked {
        self.tallies += 1;
        let due = if told.number == 0 { Ok(image::tally_bytes(told)) } else { Err(told.number) };
        self.tallied(image, b, image::TALLY, due)
    }

    fn tallied(&mut self, image: &[u8], b: u8, room: usize, due: Result<Vec<u8>, u8>) -> Checked {
        let number = due.as_ref().err().copied().unwrap_or(0);
        let written = due.unwrap_or_default();
        let (mut lent, mut out) = (Guarded::of(image), Guarded::unwritten(room));
        let answer = self.subject.look_ballot(lent.lent(), b, out.lent());
        same("a look at a ballot", image, 65_536 * u32::from(number) + written.len() as u32, answer)
            .and_then(|()| out.begins("what a look at a ballot wrote", image, &written))
            .and_then(|()| lent.holds("the image that was looked at", image, image))
            .map_err(|why| format!("ballot {b} into {room} bytes: {why}"))
    }

    /// The report of an image, in a room of just its size, of one byte less and of more.
    pub fn report(&mut self, image: &[u8], counts: Counts) -> Result<String, String> {
        let text = image::report(image, counts);
        self.count("report", image::tested(image).err().unwrap_or(0), image);
        for room in [text.len(), text.len() - 1, text.len() + 77] {
            self.printed(image, counts, &text, room)?;
        }
        Ok(text)
    }

    fn printed(&mut self, image: &[u8], counts: Counts, text: &str, room: usize) -> Checked {
        let due = if text.len() <= room { text } else { "" };
        self.too_small += usize::from(due.is_empty());
        let Counts { events, taken, status } = counts;
        let (mut lent, mut out) = (Guarded::of(image), Guarded::unwritten(room));
        let written = self.subject.image_report(lent.lent(), events, taken, status, out.lent());
        same("the report's bytes", image, due.len(), written)?;
        out.begins("the report", image, due.as_bytes())?;
        lent.holds("the image that was reported", image, image)
    }

    /// RUN into a buffer of so many bytes, whatever stood there: the status, and the bytes afterwards.
    pub fn play(&mut self, log: &[u8], limit: usize, size: usize) -> Result<(u8, Vec<u8>), String> {
        let [junk, image] = stood(size);
        self.played(log, limit, &image)?;
        self.played(log, limit, &junk)
    }

    fn played(&mut self, log: &[u8], limit: usize, before: &[u8]) -> Result<(u8, Vec<u8>), String> {
        let (Counts { taken, status, .. }, after) = image::play(log, limit, before);
        let mut lent = Guarded::of(before);
        let answer = self.subject.play(log, limit, lent.lent());
        self.count("play", status, before);
        self.logs_again += usize::from(again::in_log(&log[..taken]));
        same("RUN's status", log, status, answer)
            .and_then(|()| lent.holds("RUN's image", log, &after))
            .map_err(|why| format!("with limit {limit}: {why}"))?;
        Ok((status, after))
    }

    /// The numbers that were met too seldom, with their operations.
    pub fn missing(&self) -> Vec<(&'static str, u8)> {
        let due =
            DUE.into_iter().flat_map(|(operation, numbers)| numbers.iter().map(move |number| (operation, *number)));
        due.filter(|key| self.counts.get(key).is_none_or(|count| *count < LEAST)).collect()
    }

    /// Rows by number, columns by operation.
    pub fn table(&self) -> String {
        let mut numbers: Vec<u8> = self.counts.keys().map(|(_, number)| *number).collect();
        numbers.sort();
        numbers.dedup();
        let head: String = DUE.iter().map(|(operation, _)| format!("{operation:>10}")).collect();
        let cell = |number, operation| self.counts.get(&(operation, number)).copied().unwrap_or(0);
        let row = |number: &u8| {
            let cells: String = DUE.iter().map(|(operation, _)| format!("{:>10}", cell(*number, operation))).collect();
            format!("{number:>6}{cells}\n")
        };
        let rows: String = numbers.iter().map(row).collect();
        format!("number{head}\n{rows}")
    }
}
