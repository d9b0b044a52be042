//! Compares a subject with the model and counts what was compared.

use crate::again::{self, Met};
use crate::closing;
use crate::closings::{self, Closed};
use crate::demand::{self, Seen};
use crate::guarded::Guarded;
use crate::log::{self, Counts, Field};
use crate::merging_sorts;
use crate::mergings::{self, Merged};
use crate::model::{Event, Play};
use crate::record::Record;
use crate::subject::{Parts, Subject};
use crate::text;
use crate::voters;
use std::collections::BTreeMap;

/// A difference is told in words, with the input in hex.
pub type Checked = Result<(), String>;

/// Comparisons of READ, PUT, CLOSE and MERGE have columns of their own.
pub const READ: &str = "READ";
pub const PUT: &str = "PUT";
pub const CLOSE: &str = "CLOSE";
pub const MERGE: &str = "MERGE";

/// Every status that a log can reach.
pub const STATUSES: [u8; 22] = [0, 1, 2, 3, 4, 5, 6, 7, 8, 9, 10, 11, 12, 20, 21, 22, 23, 24, 25, 26, 40, 41];

pub struct Judge<'a> {
    subject: &'a dyn Subject,
    kind: &'static str,
    kinds: Vec<&'static str>,
    counts: BTreeMap<(u8, &'static str), usize>,
    /// By kind, logs that play an answer again.
    pub again: Met,
    pub seen: Seen,
    /// Looks at a ballot by the record beside the history.
    pub tallies: usize,
    pub reports: usize,
    pub too_long: usize,
    pub too_small: usize,
    pub closed: Closed,
    pub merged: Merged,
}

/// Bytes around a lent buffer, and in it at first.
pub const GUARD: usize = 24;

pub fn pattern(count: usize) -> Vec<u8> {
    (0..count).map(|i| (i * 37 + 11) as u8).collect()
}

pub fn hex(bytes: &[u8]) -> String {
    bytes.iter().map(|byte| format!("{byte:02x}")).collect()
}

/// Fails where the subject's answer is not the model's.
pub fn same<T: PartialEq + std::fmt::Debug>(what: &str, input: &[u8], model: T, subject: T) -> Checked {
    if model == subject {
        return Ok(());
    }
    let input = hex(input);
    Err(format!("{what}\n  the model:   {model:?}\n  the subject: {subject:?}\n  input: {input}"))
}

/// The same for all the bytes of a buffer, guards included.
pub fn same_bytes(what: &str, input: &[u8], model: &[u8], subject: &[u8]) -> Checked {
    if model == subject {
        return Ok(());
    }
    same(what, input, hex(model), hex(subject))
}

impl<'a> Judge<'a> {
    pub fn new(subject: &'a dyn Subject) -> Judge<'a> {
        Judge {
            subject,
            kind: "",
            kinds: Vec::new(),
            counts: BTreeMap::new(),
            again: Met::default(),
            seen: Seen::default(),
            tallies: 0,
            reports: 0,
            too_long: 0,
            too_small: 0,
            closed: Closed::default(),
            merged: Merged::default(),
        }
    }

    /// What is compared from here on counts as this kind.
    pub fn kind(&mut self, kind: &'static str) {
        self.kind = kind;
        self.kinds.push(kind);
    }

    fn count(&mut self, number: u8, kind: &'static str) {
        *self.counts.entry((number, kind)).or_default() += 1;
    }

    /// A log by its status, and whether it plays an answer again.
    fn count_run(&mut self, log: &[u8], counts: Counts) {
        self.count(counts.status, self.kind);
        self.again.add(again::in_log(&log[..counts.taken]).then_some(self.kind));
    }

    /// The report of a log.
    pub fn report(&mut self, log: &[u8]) -> Checked {
        if log.len() > text::MOST {
            self.too_long += 1;
            return self.printed(log, &text::settle(log));
        }
        let outcome = log::run(log, text::MOST);
        self.settlement(log, outcome.play.as_ref(), outcome.counts)
    }

    fn settlement(&mut self, log: &[u8], play: Option<&Play>, counts: Counts) -> Checked {
        self.count_run(log, counts);
        self.printed(log, &text::report(play, counts))
    }

    /// The text in a buffer of just its size, one byte more, or many more.
    fn printed(&mut self, log: &[u8], text: &str) -> Checked {
        let more = [0, 1, 1000][self.reports % 3];
        self.reports += 1;
        self.buffer(log, text, text.len() + more)
    }

    /// A buffer with room for so many bytes, between guards.
    fn buffer(&self, log: &[u8], text: &str, room: usize) -> Checked {
        let mut buffer = pattern(GUARD + room + GUARD);
        let mut expected = buffer.clone();
        let fits = text.len() <= room;
        if fits {
            expected[GUARD..GUARD + text.len()].copy_from_slice(text.as_bytes());
        }
        let out = &mut buffer[GUARD..GUARD + room];
        let written = self.subject.report(log, out);
        let shown = String::from_utf8_lossy(&out[..written.min(room)]).to_string();
        same("the text", log, if fits { text } else { "" }, &shown)?;
        same("the report's bytes", log, if fits { text.len() } else { 0 }, written)?;
        same_bytes("the report's buffer", log, &expected, &buffer)
    }

    /// Buffers from nothing to one byte less than the text needs.
    pub fn small_buffers(&mut self, log: &[u8]) -> Checked {
        let text = text::settle(log);
        for room in [0, 1, text.len() / 2, text.len() - 1] {
            self.too_small += 1;
            self.buffer(log, &text, room)?;
        }
        self.report(log)
    }

    /// RUN with a limit.
    pub fn run(&mut self, log: &[u8], limit: usize) -> Checked {
        let model = log::run(log, limit).counts;
        let subject = Counts {
            events: self.subject.events(log, limit),
            taken: self.subject.taken(log, limit),
            status: self.subject.status(log, limit),
        };
        self.count_run(log, model);
        same(&format!("RUN with limit {limit}"), log, model, subject)
    }

    /// READ at the start of these bytes.
    pub fn read(&mut self, bytes: &[u8]) -> Checked {
        let (number, taken) = match log::read(bytes) {
            Ok((_, taken)) => (0, taken),
            Err(number) => (number, 0),
        };
        self.count(number, READ);
        same("READ's number", bytes, number, self.subject.read_number(bytes))?;
        same("READ's bytes", bytes, taken, self.subject.read_taken(bytes))
    }

    /// PUT into a buffer of so many bytes, between guards.
    pub fn put(&mut self, field: &Field, size: usize, place: usize) -> Checked {
        let start = pattern(GUARD + size + GUARD);
        let (number, written, count) = match log::put(field, &start[GUARD..GUARD + size], place) {
            Ok((written, count)) => (0, written, count),
            Err(number) => (number, start[GUARD..GUARD + size].to_vec(), 0),
        };
        let expected = [&start[..GUARD], &written, &start[GUARD + size..]].concat();
        let mut buffer = start;
        let lent = &mut buffer[GUARD..GUARD + size];
        let answer = self.subject.put(parts(field), lent, place);
        self.count(number, PUT);
        let what = format!("PUT of {field:?} at {place} of {size}");
        same(&what, &[], u32::from(number) * 65_536 + count as u32, answer)?;
        same_bytes(&what, &[], &expected, &buffer)?;
        if number == 0 {
            same(&what, &[], Ok((field.clone(), count)), log::read(&written[place..]))?;
            self.read(&buffer[GUARD + place..GUARD + size])?;
        }
        Ok(())
    }

    /// PUT with a tag that is not in the table.
    pub fn put_unknown(&mut self, tag: u8) -> Checked {
        let mut buffer = pattern(80);
        let parts = Parts { tag, x: 1, y: 2, v: 3, note: &[4] };
        let answer = self.subject.put(parts, &mut buffer, 0);
        self.count(21, PUT);
        let what = format!("PUT of tag {tag}");
        same(&what, &[], 21 * 65_536, answer)?;
        same_bytes(&what, &[], &pattern(80), &buffer)
    }

    /// CLOSE into a buffer of so many bytes, between guards, with the closing log that is due, or the number.
    pub fn close(&mut self, log: &[u8], limit: usize, bit: u8, room: usize, due: Result<&[u8], u8>) -> Checked {
        let (number, written) = match due {
            Ok(bytes) if bytes.len() <= room => (0, bytes),
            Ok(_) => (30, &[][..]),
            Err(number) => (number, &[][..]),
        };
        let mut buffer = Guarded::unwritten(room);
        let answer = self.subject.close(log, limit, bit, buffer.lent());
        self.count(number, CLOSE);
        let what = format!("CLOSE with limit {limit}, the preferred bit {bit} and room for {room}");
        same(&what, log, u64::from(number) * 4_294_967_296 + written.len() as u64, answer)?;
        buffer.begins(&what, log, written)
    }

    /// MERGE into a buffer of so many bytes, between guards, with the one log that is due, or the number.
    pub fn merge(&mut self, first: &[u8], second: &[u8], room: usize, due: Result<&[u8], u8>) -> Checked {
        let (number, written) = match due {
            Ok(bytes) if bytes.len() <= room => (0, bytes),
            Ok(_) => (30, &[][..]),
            Err(number) => (number, &[][..]),
        };
        let mut buffer = Guarded::unwritten(room);
        let answer = self.subject.merge(first, second, buffer.lent());
        self.count(number, MERGE);
        let both = [first, second].concat();
        let what = format!("MERGE of {} bytes and the rest, with room for {room}", first.len());
        let halves = |answer: u64| (answer >> 56, answer & 0xff_ffff_ffff_ffff);
        same(&what, &both, (u64::from(number), written.len() as u64), halves(answer))?;
        buffer.begins(&what, &both, written)
    }

    /// A list of events: demand 3, who voted which way, and the log up to each refused event, which then is left out.
    /// A long log is compared only now and then.
    pub fn list(&mut self, n: u8, rule: u8, events: &[Event]) -> Checked {
        let whole = log::written(n, rule, events);
        demand::check(n, rule, events, &mut self.seen)
            .map_err(|why| format!("demand 3: {why}\n  log, refused events included: {}", hex(&whole)))?;
        self.voters(n, rule, events)
            .map_err(|why| format!("request A.2: {why}\n  log, refused events included: {}", hex(&whole)))?;
        let mut play = Play::open(n, rule).map_err(|number| format!("OPEN gives {number}"))?;
        let mut log = log::written(n, rule, &[]);
        let mut played = 0;
        for (i, &event) in events.iter().enumerate() {
            let start = log.len();
            log.extend(Field::Event(event).bytes());
            let status = play.event(event);
            let taken = if status == 0 { log.len() } else { start };
            played += usize::from(status == 0);
            if start < 600 || i % 256 == 0 {
                let counts = Counts { events: played, taken, status };
                self.settlement(&log, Some(&play), counts)?;
            }
            log.truncate(taken);
        }
        self.report(&log)
    }

    /// Who voted which way, by the record that a list leaves and by its history: the ballots that an event may have changed, and
    /// at the list's end all of them.
    fn voters(&mut self, n: u8, rule: u8, events: &[Event]) -> Checked {
        let mut play = Play::open(n, rule).map_err(|number| format!("OPEN gives {number}"))?;
        let (_, mut record) = Record::open(n, rule);
        for (i, &event) in events.iter().enumerate() {
            let number = play.event(event);
            same("its number, by the history and the record", &[], number, record.event(event))?;
            let changed = voters::touched(&play, event).filter(|_| number == 0 && (i < 200 || i % 16 == 0));
            self.tallies += usize::from(changed.is_some());
            changed.map_or(Ok(()), |b| voters::check(&play, &record, b))?;
        }
        self.tallies += 65;
        (0..=64).try_for_each(|b| voters::check(&play, &record, b))
    }

    /// Statuses that no log reached.
    pub fn missing(&self) -> Vec<u8> {
        let seen = |status: u8| {
            let mut kinds = self.kinds.iter();
            kinds.any(|kind| self.counts.contains_key(&(status, *kind)))
        };
        STATUSES.into_iter().filter(|&s| !seen(s)).collect()
    }

    /// Numbers that CLOSE did not meet, and sorts of closing logs that were none.
    pub fn not_closed(&self) -> String {
        let numbers: Vec<u8> = closings::due().filter(|&number| !self.counts.contains_key(&(number, CLOSE))).collect();
        let sorts = self.closed.sorts.missing(&closing::SORTS, 1);
        match numbers.is_empty() && sorts.is_empty() && self.closed.no_bit > 0 && self.closed.at_bound > 0 {
            true => String::new(),
            false => format!("CLOSE was not compared for {numbers:?} {sorts:?}, or for no bit, or not at the bound"),
        }
    }

    /// Numbers that MERGE met too rarely, and sorts of logs that it did.
    pub fn not_merged(&self) -> String {
        let rare = |number: &u8| self.counts.get(&(*number, MERGE)).is_none_or(|&times| times < mergings::LEAST);
        let numbers: Vec<u8> = mergings::DUE.into_iter().filter(rare).collect();
        let sorts = self.merged.sorts.missing(&merging_sorts::all(), mergings::LEAST);
        match numbers.is_empty() && sorts.is_empty() && self.merged.some_order > 0 && self.merged.no_order > 0 {
            true => String::new(),
            false => format!("MERGE met {numbers:?} {sorts:?} fewer than {} times", mergings::LEAST),
        }
    }

    /// Rows by number, columns by kind; the last row has the logs that play an answer again.
    pub fn table(&self) -> String {
        let columns = || self.kinds.iter().copied().chain([READ, PUT, CLOSE, MERGE]);
        let mut numbers: Vec<u8> = self.counts.keys().map(|(number, _)| *number).collect();
        numbers.dedup();
        let head: String = columns().map(|kind| format!("{kind:>12}")).collect();
        let cell = |number, kind| self.counts.get(&(number, kind)).copied().unwrap_or(0);
        let row = |number: &u8| {
            let cells: String = columns().map(|kind| format!("{:>12}", cell(*number, kind))).collect();
            format!("{number:>6}{cells}\n")
        };
        let rows: String = numbers.iter().map(row).collect();
        let again: String = columns().map(|kind| format!("{:>12}", self.again.times(kind))).collect();
        format!("number{head}\n{rows} again{again}\n")
    }
}

/// A field as PUT's exported form takes it. What its tag does not use is odd on purpose.
fn parts(field: &Field) -> Parts<'_> {
    const UNUSED: Parts = Parts { tag: 0, x: 0xee, y: 0xdd, v: 0xcccc_bbbb, note: &[0xaa; 70] };
    let tag = field.tag();
    match *field {
        Field::Opening { n, rule } => Parts { tag, x: n, y: rule, ..UNUSED },
        Field::Event(Event::Claim { s, v }) => Parts { tag, x: s, v, ..UNUSED },
        Field::Event(Event::Deliver { t, s }) => Parts { tag, x: t, y: s, ..UNUSED },
        Field::Event(Event::Step { s } | Event::Lose { s }) => Parts { tag, x: s, ..UNUSED },
        Field::Event(Event::Answer { b, a }) => Parts { tag, x: b, y: a, ..UNUSED },
        Field::Note(ref note) => Parts { tag, note, ..UNUSED },
    }
}
