//! Events on a settlement beside the same events as a log: the same numbers, and the same bytes after each.

use dagmuize::{Field, Fields, Log, Refusal, Rule, Settlement, Tally};

/// Numbers that look random.
struct Rng(u64);

impl Rng {
    fn below(&mut self, end: u8) -> u8 {
        self.0 = self.0.wrapping_mul(6_364_136_223_846_793_005).wrapping_add(1_442_695_040_888_963_407);
        ((self.0 >> 33) % u64::from(end)) as u8
    }

    /// An event with numbers up to those that there just are not.
    fn event(&mut self, n: u8) -> Field {
        let (s, t) = (self.below(n + 1), self.below(n + 1));
        match self.below(20) {
            0..=2 => Field::Claim { s, v: u32::from(self.below(8)) },
            3..=8 => Field::Deliver { t, s },
            9 if self.below(4) == 0 => Field::Lose { s },
            10..=12 => Field::Answer { b: self.below(5), a: self.below(3) },
            _ => Field::Step { s },
        }
    }
}

fn play(settlement: &mut Settlement, event: &Field) -> Result<(), Refusal> {
    match *event {
        Field::Claim { s, v } => settlement.claim(s, v),
        Field::Deliver { t, s } => settlement.deliver(t, s),
        Field::Step { s } => settlement.step(s),
        Field::Lose { s } => settlement.lose(s),
        Field::Answer { b, a } => settlement.answer(b, a),
        Field::Open { .. } | Field::Note(_) => unreachable!("no event"),
    }
}

/// One event on the settlement, and after the accepted ones in a log: its number.
fn compare(settlement: &mut Settlement, log: &mut Log, event: &Field) -> u8 {
    let before = settlement.clone();
    let number = play(settlement, event).map_or_else(Refusal::number, |()| 0);
    let mut longer = log.clone();
    longer.put(event).expect("an event is no note");
    let played = Settlement::play(longer.as_bytes(), usize::MAX);
    assert_eq!((number, &*settlement), (played.status(), &played.settlement), "{event}");
    match number {
        0 => *log = longer,
        _ => assert_eq!(*settlement, before, "{event} is refused"),
    }
    number
}

/// The answer that a log's ballot has: the bit of its first ANSWER.
fn answer_in(log: &Log, ballot: u8) -> Option<u8> {
    Fields::of(log.as_bytes()).find_map(|(_, field)| match field {
        Ok(Field::Answer { b, a }) if b == ballot => Some(a),
        _ => None,
    })
}

/// Whether a ballot has its answer. Then that is accepted again, the other bit is 11, and nothing changes.
fn announce(settlement: &mut Settlement, log: &mut Log, ballot: u8) -> bool {
    let Some(answer) = answer_in(log, ballot) else {
        return false;
    };
    let before = settlement.clone();
    for (a, number) in [(answer, 0), (1 - answer, 11), (answer, 0), (2, 10)] {
        assert_eq!(compare(settlement, log, &Field::Answer { b: ballot, a }), number, "answer {ballot} {a}");
        assert_eq!(*settlement, before, "answer {ballot} {a}");
    }
    true
}

/// Who voted which way: a station is in as many sets as it has votes, and in at most one of each ballot. So many votes in all.
fn voters_and_votes(settlement: &Settlement) -> usize {
    let tallies: Vec<Tally> = (0..=64).map_while(|b| settlement.look_ballot(b).ok()).collect();
    assert!(tallies.iter().all(|tally| tally.zero.mask() & tally.one.mask() == 0), "the sets never meet");
    let standings = settlement.look_all().expect("it is from an opening");
    for (s, standing) in (0..).zip(&standings) {
        let voted = tallies.iter().filter(|tally| tally.zero.contains(s) || tally.one.contains(s)).count();
        assert_eq!(voted, usize::from(standing.votes), "station {s}");
    }
    let votes = standings.iter().map(|standing| usize::from(standing.votes)).sum();
    assert_eq!(tallies.iter().map(|tally| usize::from(tally.votes())).sum::<usize>(), votes);
    votes
}

/// A list of events from an opening; counts the numbers met, the votes, and the ballots that were answered again.
fn compare_list(rng: &mut Rng, n: u8, rule: Rule, met: &mut [usize; 256], votes: &mut usize) -> usize {
    let mut settlement = Settlement::open(n, rule).expect("1 to 4 stations");
    let mut log = Log::new();
    log.put(&Field::Open { n, rule: rule.number() }).expect("an opening is no note");
    let mut again = 0;
    for _ in 0..120 {
        let event = rng.event(n);
        met[usize::from(compare(&mut settlement, &mut log, &event))] += 1;
        if rng.below(3) == 0 {
            again += usize::from(announce(&mut settlement, &mut log, rng.below(4)));
        }
    }
    *votes += voters_and_votes(&settlement);
    assert_eq!(Settlement::from_bytes(&settlement.to_bytes()), Ok(settlement));
    again
}

#[test]
fn an_event_does_on_a_settlement_what_it_does_in_a_log() {
    let mut rng = Rng(20_261_116);
    let mut met = [0; 256];
    let (mut again, mut votes) = (0, 0);
    for _ in 0..200 {
        let n = 1 + rng.below(4);
        again += compare_list(&mut rng, n, Rule::ByStation, &mut met, &mut votes);
        again += compare_list(&mut rng, n, Rule::ByClaim, &mut met, &mut votes);
    }
    assert!(votes > 500, "stations vote often: {votes}");
    assert!(again > 300, "answers come again often: {again}");
    assert!(met[..=12].iter().all(|times| *times > 50), "0 to 12 are met often: {:?}", &met[..=12]);
    assert!(met[13..].iter().all(|times| *times == 0), "no other number is met");
}
