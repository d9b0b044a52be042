//! The plain implementation on an image: the record test, LOOK and a look at a ballot on its struct, which the benchmark times,
//! and the bytes of that struct, which `--self` compares.

use crate::images::Images;
use crate::model::Event;
use crate::plain::{if_it_fits, run, write_outcome, Ballot, Outcome, Plain, Settlement, Stage, Station, BLANK};

const BYTES: usize = 1283;

impl Settlement {
    /// The record test, 42 where it fails.
    fn sound(&self) -> bool {
        let known = self.n <= 32 && (self.rule == 1 || self.rule == 2);
        known && self.stations[..usize::from(self.n)].iter().all(|station| self.sound_station(station))
    }

    #[inline]
    fn sound_station(&self, station: &Station) -> bool {
        let in_range = match (self.rule, station.stage) {
            (_, Stage::Idle | Stage::Waiting) | (1, Stage::Decided) => true,
            (1, Stage::VotingFinish | Stage::AwaitingFinish) => false,
            (1, _) => station.round < self.rounds,
            _ => station.round < 32,
        };
        in_range && station.cursor < self.n
    }

    /// An event with the record test before it, in place.
    pub fn event(&mut self, event: Event) -> u8 {
        if !self.sound() {
            return 42;
        }
        match event {
            Event::Claim { s, v } => self.claim(s, v),
            Event::Deliver { t, s } => self.deliver(t, s),
            Event::Step { s } => self.step(s),
            Event::Lose { s } => self.lose(s),
            Event::Answer { b, a } => self.answer(b, a),
        }
    }

    /// LOOK with the record test before it, its answer in eight bytes.
    pub fn look(&self, s: u8) -> u64 {
        match (self.sound(), s < self.n) {
            (false, _) => 42 << 56,
            (_, false) => 1 << 56,
            _ => self.answer_of(&self.stations[usize::from(s)]),
        }
    }

    fn answer_of(&self, station: &Station) -> u64 {
        let votes = u64::from(station.votes(self.rule, self.rounds)) << 40;
        match station.stage {
            Stage::Decided => 1 << 48 | votes | u64::from(station.decision),
            _ => votes,
        }
    }

    /// LOOK at every station below n with one record test; the number times 65,536, and the bytes written.
    pub fn look_all(&self, out: &mut [u8]) -> u32 {
        if !self.sound() {
            return 42 << 16;
        }
        let Some(out) = out.get_mut(..8 * usize::from(self.n)) else {
            return 30 << 16;
        };
        for (eight, station) in out.chunks_exact_mut(8).zip(&self.stations) {
            eight.copy_from_slice(&self.answer_of(station).to_be_bytes());
        }
        out.len() as u32
    }

    /// A look at a ballot, with the record test before it; the number times 65,536, and the bytes written.
    pub fn look_ballot(&self, b: u8, out: &mut [u8]) -> u32 {
        if !self.sound() {
            return 42 << 16;
        }
        if b >= self.ballot_count() {
            return 9 << 16;
        }
        let Some(out) = out.first_chunk_mut::<12>() else {
            return 30 << 16;
        };
        let Ballot { cast: [zero, one], answered, answer } = self.ballots[usize::from(b)];
        out[..4].copy_from_slice(&zero.to_be_bytes());
        out[4..8].copy_from_slice(&one.to_be_bytes());
        let counts = [zero, one].map(|set| set.count_ones() as u8);
        out[8..].copy_from_slice(&[counts[0], counts[1], answered as u8, (answered && answer) as u8]);
        12
    }
}

fn number(bytes: &[u8], i: usize) -> u32 {
    u32::from_be_bytes([bytes[i], bytes[i + 1], bytes[i + 2], bytes[i + 3]])
}

fn mark(byte: u8) -> Result<bool, u8> {
    match byte {
        0 => Ok(false),
        1 => Ok(true),
        _ => Err(42),
    }
}

fn stage(byte: u8) -> Result<Stage, u8> {
    Ok(match byte {
        0 => Stage::Idle,
        1 => Stage::Waiting,
        2 => Stage::VotingBit,
        3 => Stage::AwaitingBit,
        4 => Stage::Seeking,
        5 => Stage::VotingFinish,
        6 => Stage::AwaitingFinish,
        7 => Stage::Decided,
        _ => return Err(42),
    })
}

fn read(image: &[u8]) -> Result<Settlement, u8> {
    if image.len() != BYTES {
        return Err(80);
    }
    if image[0] != 3 {
        return Err(81);
    }
    let (n, rule) = (image[1], image[2]);
    let rounds = (0..8).find(|r| 1 << r >= i32::from(n)).unwrap_or(8);
    let mut settlement = Settlement { n, rule, rounds, ..BLANK };
    for (station, bytes) in settlement.stations.iter_mut().zip(image[3..643].chunks(20)) {
        *station = read_station(bytes)?;
    }
    for (ballot, bytes) in settlement.ballots.iter_mut().zip(image[643..1155].chunks(8)) {
        ballot.cast = [number(bytes, 0), number(bytes, 4)];
    }
    for (ballot, bytes) in settlement.ballots.iter_mut().zip(image[1155..].chunks(2)) {
        (ballot.answered, ballot.answer) = (mark(bytes[0])?, mark(bytes[1])?);
    }
    Ok(settlement)
}

fn read_station(bytes: &[u8]) -> Result<Station, u8> {
    Ok(Station {
        stage: stage(bytes[0])?,
        lost: mark(bytes[1])?,
        cursor: bytes[2],
        round: bytes[3],
        held: number(bytes, 4),
        claim: number(bytes, 8),
        word: number(bytes, 12),
        decision: number(bytes, 16),
    })
}

fn write(settlement: &Settlement, image: &mut [u8]) {
    image[..3].copy_from_slice(&[3, settlement.n, settlement.rule]);
    for (station, bytes) in settlement.stations.iter().zip(image[3..643].chunks_mut(20)) {
        bytes[..4].copy_from_slice(&[station.stage as u8, station.lost as u8, station.cursor, station.round]);
        bytes[4..8].copy_from_slice(&station.held.to_be_bytes());
        bytes[8..12].copy_from_slice(&station.claim.to_be_bytes());
        bytes[12..16].copy_from_slice(&station.word.to_be_bytes());
        bytes[16..].copy_from_slice(&station.decision.to_be_bytes());
    }
    for (ballot, bytes) in settlement.ballots.iter().zip(image[643..1155].chunks_mut(8)) {
        bytes[..4].copy_from_slice(&ballot.cast[0].to_be_bytes());
        bytes[4..].copy_from_slice(&ballot.cast[1].to_be_bytes());
    }
    for (ballot, bytes) in settlement.ballots.iter().zip(image[1155..].chunks_mut(2)) {
        bytes.copy_from_slice(&[ballot.answered as u8, ballot.answer as u8]);
    }
}

fn on_image(image: &mut [u8], event: Event) -> u8 {
    match read(image) {
        Ok(mut settlement) => {
            let number = settlement.event(event);
            if number == 0 {
                write(&settlement, image);
            }
            number
        }
        Err(number) => number,
    }
}

/// What is reported of an image: its settlement, or the blank one with the number of what is refused.
fn shown(image: &[u8], events: usize, taken: usize, status: u8) -> Outcome {
    let refused = |status| Outcome { settlement: BLANK, events: 0, taken: 0, status };
    match read(image) {
        Ok(settlement) if settlement.sound() => Outcome { settlement, events, taken, status },
        Ok(_) => refused(42),
        Err(number) => refused(number),
    }
}

impl Images for Plain {
    fn open(&self, image: &mut [u8], n: u8, rule: u8) -> u8 {
        if image.len() != BYTES {
            return 80;
        }
        let opened = Settlement::open(n, rule);
        write(opened.as_ref().unwrap_or(&BLANK), image);
        opened.err().unwrap_or(0)
    }

    fn claim(&self, image: &mut [u8], s: u8, v: u32) -> u8 {
        on_image(image, Event::Claim { s, v })
    }

    fn deliver(&self, image: &mut [u8], t: u8, s: u8) -> u8 {
        on_image(image, Event::Deliver { t, s })
    }

    fn step(&self, image: &mut [u8], s: u8) -> u8 {
        on_image(image, Event::Step { s })
    }

    fn lose(&self, image: &mut [u8], s: u8) -> u8 {
        on_image(image, Event::Lose { s })
    }

    fn answer(&self, image: &mut [u8], b: u8, a: u8) -> u8 {
        on_image(image, Event::Answer { b, a })
    }

    fn look(&self, image: &[u8], s: u8) -> u64 {
        read(image).map_or_else(|number| u64::from(number) << 56, |settlement| settlement.look(s))
    }

    fn look_all(&self, image: &[u8], out: &mut [u8]) -> u32 {
        read(image).map_or_else(|number| u32::from(number) << 16, |settlement| settlement.look_all(out))
    }

    fn look_ballot(&self, image: &[u8], b: u8, out: &mut [u8]) -> u32 {
        read(image).map_or_else(|number| u32::from(number) << 16, |settlement| settlement.look_ballot(b, out))
    }

    fn image_report(&self, image: &[u8], events: usize, taken: usize, status: u8, out: &mut [u8]) -> usize {
        let mut text = Vec::with_capacity(2048);
        write_outcome(&mut text, &shown(image, events, taken, status)).expect("a vector takes every byte");
        if_it_fits(&text, out)
    }

    fn play(&self, log: &[u8], limit: usize, image: &mut [u8]) -> u8 {
        if image.len() != BYTES {
            return 80;
        }
        let outcome = run(log, limit);
        write(&outcome.settlement, image);
        outcome.status
    }
}
