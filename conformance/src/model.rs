//! The settlement of document 01, with requests A.1 and A.2 of document 02, told as a history: who put in which claim, who
//! holds whose, who is lost, which ballot has which answer, and each station's own list of what it did.
//! Stage, round, word, cursor and who voted which way are stored nowhere: they are read off that list.

use std::collections::{BTreeMap, BTreeSet};

/// 01, "Operations": an event with any arguments.
#[derive(Clone, Copy, Debug, PartialEq, Eq, PartialOrd, Ord)]
pub enum Event {
    Claim { s: u8, v: u32 },
    Deliver { t: u8, s: u8 },
    Step { s: u8 },
    Lose { s: u8 },
    Answer { b: u8, a: u8 },
}

/// The two figures: rule 1 goes by station, rule 2 by claim.
#[derive(Clone, Copy, Debug, PartialEq, Eq, PartialOrd, Ord)]
pub enum Rule {
    ByStation,
    ByClaim,
}

/// What one accepted STEP did.
#[derive(Clone, Copy, Debug, PartialEq, Eq, PartialOrd, Ord)]
pub enum Action {
    /// It held its own claim and left waiting.
    Begin,
    Vote {
        ballot: u8,
        bit: u8,
    },
    Take {
        ballot: u8,
        bit: u8,
    },
    /// Seeking, it looked at this station.
    Try {
        station: u8,
        fits: bool,
    },
}

/// 01, "Stages". Voting and awaiting name their ballot.
#[derive(Clone, Copy, Debug, PartialEq, Eq)]
pub enum Stage {
    Idle,
    Waiting,
    Voting(u8),
    Awaiting(u8),
    Seeking,
    Decided,
}

/// 02, A.2: what a look at a ballot shows. The stations that cast 0, those that cast 1, and the answer if there is one.
#[derive(Clone, Debug, PartialEq, Eq)]
pub struct Votes {
    pub voters: [BTreeSet<u8>; 2],
    pub answer: Option<u8>,
}

/// Everything that was accepted since OPEN.
#[derive(Clone, Debug, PartialEq, Eq, PartialOrd, Ord)]
pub struct Play {
    pub n: u8,
    pub rule: Rule,
    /// Station, and the claim it put in.
    pub put_in: BTreeMap<u8, u32>,
    /// (t, s): s holds the claim of t.
    pub held: BTreeSet<(u8, u8)>,
    pub lost: BTreeSet<u8>,
    /// Ballot, and its answer.
    pub answers: BTreeMap<u8, u8>,
    actions: BTreeMap<u8, Vec<Action>>,
}

/// 01: R, the least r with n stations in 2^r.
pub fn ceil_log2(n: u8) -> u8 {
    (0..8).find(|r| 1u32 << r >= u32::from(n)).unwrap_or(8)
}

/// 01: the count of a claim's binary digits.
pub fn length(claim: u32) -> usize {
    format!("{claim:b}").len()
}

/// Bit k of a number, bits counted from the lowest.
fn digit(number: u32, k: usize) -> u8 {
    (u64::from(number) / 2u64.pow(k as u32) % 2) as u8
}

impl Play {
    /// OPEN.
    pub fn open(n: u8, rule: u8) -> Result<Play, u8> {
        if !(1..=32).contains(&n) {
            return Err(40);
        }
        let rule = match rule {
            1 => Rule::ByStation,
            2 => Rule::ByClaim,
            _ => return Err(41),
        };
        Ok(Play {
            n,
            rule,
            put_in: BTreeMap::new(),
            held: BTreeSet::new(),
            lost: BTreeSet::new(),
            answers: BTreeMap::new(),
            actions: BTreeMap::new(),
        })
    }

    /// How many ballots there are.
    pub fn ballots(&self) -> u8 {
        match self.rule {
            Rule::ByStation => ceil_log2(self.n),
            Rule::ByClaim => 64,
        }
    }

    pub fn rule_number(&self) -> u8 {
        match self.rule {
            Rule::ByStation => 1,
            Rule::ByClaim => 2,
        }
    }

    /// What s did, oldest first.
    pub fn actions(&self, s: u8) -> &[Action] {
        self.actions.get(&s).map_or(&[], Vec::as_slice)
    }

    /// The ballots s voted in, with its bits.
    pub fn voted(&self, s: u8) -> Vec<(u8, u8)> {
        let vote = |action: &Action| match *action {
            Action::Vote { ballot, bit } => Some((ballot, bit)),
            _ => None,
        };
        self.actions(s).iter().filter_map(vote).collect()
    }

    /// The answers s took, with their ballots.
    pub fn took(&self, s: u8) -> Vec<(u8, u8)> {
        let take = |action: &Action| match *action {
            Action::Take { ballot, bit } => Some((ballot, bit)),
            _ => None,
        };
        self.actions(s).iter().filter_map(take).collect()
    }

    /// The bits s has learnt, lowest first: d.
    fn learnt(&self, s: u8) -> Vec<u8> {
        let settles_a_bit = |ballot: u8| self.rule == Rule::ByStation || ballot % 2 == 0;
        let took = self.took(s).into_iter();
        took.filter(|(ballot, _)| settles_a_bit(*ballot)).map(|(_, bit)| bit).collect()
    }

    /// d as a number.
    fn word(&self, s: u8) -> u32 {
        let bits = self.learnt(s).into_iter().rev();
        bits.fold(0, |word, bit| 2 * word + u32::from(bit))
    }

    /// The station s looked at last, at first itself: j.
    fn cursor(&self, s: u8) -> u8 {
        let tried = |action: &Action| match *action {
            Action::Try { station, .. } => Some(station),
            _ => None,
        };
        self.actions(s).iter().rev().find_map(tried).unwrap_or(s)
    }

    /// What the learnt bits are compared with: t itself, or its claim.
    fn number_of(&self, t: u8) -> u32 {
        match self.rule {
            Rule::ByStation => u32::from(t),
            Rule::ByClaim => self.put_in[&t],
        }
    }

    /// 01, "Seeking": the claim of t is held, and agrees with every bit learnt.
    fn fits(&self, s: u8, t: u8) -> bool {
        let agrees = |(k, bit): (usize, u8)| digit(self.number_of(t), k) == bit;
        self.held.contains(&(t, s)) && self.learnt(s).into_iter().enumerate().all(agrees)
    }

    /// 01, "Voting": the bit that s casts in a ballot.
    fn bit_to_cast(&self, s: u8, ballot: u8) -> u8 {
        let number = self.number_of(self.cursor(s));
        match self.rule {
            Rule::ByStation => digit(number, usize::from(ballot)),
            Rule::ByClaim if ballot % 2 == 0 => digit(number, usize::from(ballot / 2)),
            Rule::ByClaim => u8::from(self.word(s) == number),
        }
    }

    /// Where s stands. Its next ballot is the one after those it voted in.
    pub fn stage(&self, s: u8) -> Stage {
        if !self.put_in.contains_key(&s) {
            return Stage::Idle;
        }
        let Some(&last) = self.actions(s).last() else {
            return Stage::Waiting;
        };
        let next = self.voted(s).len() as u8;
        match (last, self.rule) {
            (Action::Vote { ballot, .. }, _) => Stage::Awaiting(ballot),
            (Action::Try { fits: false, .. }, _) => Stage::Seeking,
            (Action::Take { .. }, Rule::ByStation) => Stage::Seeking,
            (Action::Take { ballot, .. }, Rule::ByClaim) if ballot % 2 == 0 => Stage::Seeking,
            (Action::Take { bit: 1, .. }, Rule::ByClaim) => Stage::Decided,
            (Action::Take { .. }, Rule::ByClaim) => Stage::Voting(next),
            (_, Rule::ByStation) if next == self.ballots() => Stage::Decided,
            (Action::Begin | Action::Try { .. }, _) => Stage::Voting(next),
        }
    }

    /// The claim that s decided.
    pub fn decision(&self, s: u8) -> Option<u32> {
        match (self.stage(s), self.rule) {
            (Stage::Decided, Rule::ByStation) => Some(self.put_in[&self.cursor(s)]),
            (Stage::Decided, Rule::ByClaim) => Some(self.word(s)),
            _ => None,
        }
    }

    /// Some station, lost since or not, cast this bit.
    pub fn was_cast(&self, ballot: u8, bit: u8) -> bool {
        let vote = Action::Vote { ballot, bit };
        self.actions.values().any(|actions| actions.contains(&vote))
    }

    /// 02, A.2: the stations that cast this bit, lost since or not.
    pub fn voters(&self, ballot: u8, bit: u8) -> BTreeSet<u8> {
        let vote = Action::Vote { ballot, bit };
        self.actions.iter().filter(|(_, actions)| actions.contains(&vote)).map(|(&s, _)| s).collect()
    }

    /// 02, A.2: a look at a ballot, or 9.
    pub fn look_ballot(&self, b: u8) -> Result<Votes, u8> {
        refuse(b >= self.ballots(), 9)?;
        Ok(Votes { voters: [self.voters(b, 0), self.voters(b, 1)], answer: self.answers.get(&b).copied() })
    }

    /// Plays one event and answers its number. Refused, nothing has happened.
    pub fn event(&mut self, event: Event) -> u8 {
        let done = match event {
            Event::Claim { s, v } => self.claim(s, v),
            Event::Deliver { t, s } => self.deliver(t, s),
            Event::Step { s } => self.step(s),
            Event::Lose { s } => self.lose(s),
            Event::Answer { b, a } => self.answer(b, a),
        };
        done.err().unwrap_or(0)
    }

    /// 1 for no such station, then 2 for a lost one.
    fn live(&self, s: u8) -> Result<(), u8> {
        refuse(s >= self.n, 1)?;
        refuse(self.lost.contains(&s), 2)
    }

    fn claim(&mut self, s: u8, v: u32) -> Result<(), u8> {
        self.live(s)?;
        refuse(self.put_in.contains_key(&s), 3)?;
        self.put_in.insert(s, v);
        Ok(())
    }

    fn deliver(&mut self, t: u8, s: u8) -> Result<(), u8> {
        refuse(t >= self.n, 1)?;
        self.live(s)?;
        refuse(!self.put_in.contains_key(&t), 4)?;
        refuse(self.held.contains(&(t, s)), 5)?;
        self.held.insert((t, s));
        Ok(())
    }

    fn step(&mut self, s: u8) -> Result<(), u8> {
        self.live(s)?;
        let action = self.next_action(s)?;
        self.actions.entry(s).or_default().push(action);
        Ok(())
    }

    /// 01, "What one STEP does", with STEP's own refusals.
    fn next_action(&self, s: u8) -> Result<Action, u8> {
        match self.stage(s) {
            Stage::Idle => Err(6),
            Stage::Decided => Err(7),
            Stage::Waiting if self.held.contains(&(s, s)) => Ok(Action::Begin),
            Stage::Waiting => Err(8),
            Stage::Voting(ballot) => {
                let bit = self.bit_to_cast(s, ballot);
                Ok(Action::Vote { ballot, bit })
            }
            Stage::Awaiting(ballot) => {
                let bit = *self.answers.get(&ballot).ok_or(8)?;
                Ok(Action::Take { ballot, bit })
            }
            Stage::Seeking => {
                let station = (self.cursor(s) + 1) % self.n;
                let fits = self.fits(s, station);
                Ok(Action::Try { station, fits })
            }
        }
    }

    fn lose(&mut self, s: u8) -> Result<(), u8> {
        self.live(s)?;
        self.lost.insert(s);
        Ok(())
    }

    /// 02, A.1: the answer that a ballot has is accepted again, and nothing happens; the other bit is 11.
    fn answer(&mut self, b: u8, a: u8) -> Result<(), u8> {
        refuse(b >= self.ballots(), 9)?;
        refuse(a > 1, 10)?;
        if let Some(&stands) = self.answers.get(&b) {
            return refuse(stands != a, 11);
        }
        refuse(!self.was_cast(b, a), 12)?;
        self.answers.insert(b, a);
        Ok(())
    }
}

fn refuse(met: bool, number: u8) -> Result<(), u8> {
    if met {
        Err(number)
    } else {
        Ok(())
    }
}
