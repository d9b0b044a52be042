//! The stored script of `lent_case`, by topic. Each number beside a call is written by hand from document 01 and, for answers that come twice,
//! who voted which way and comparisons, from requests A.1, A.2 and A.4 of document 02; the plain reading in `record.rs` has to give it too, and
//! the program.

use crate::log::{written, Field};
use crate::model::Event;
use crate::record::{Ballot, Stage, Station, IDLE};
use crate::script::{Command, Script};
use Stage::*;

/// The script that is stored as crates/lent_case/stdin, and what is stored as its stdout.
pub fn script() -> Script {
    let mut hand = Hand(Script::new(true));
    hand.columns();
    hand.openings();
    hand.case_s();
    hand.looks();
    hand.heads();
    hand.cursors();
    hand.rounds();
    hand.finish_stages();
    hand.past_the_stations();
    hand.last_ballot();
    hand.stays();
    hand.orders();
    hand.repeats();
    hand.tallies();
    hand.lengths();
    hand.comparisons();
    hand.bodies();
    hand.rests();
    hand.limits();
    hand.0
}

struct Hand(Script);

const CLAIM: Event = Event::Claim { s: 0, v: 77 };
const DELIVER: Event = Event::Deliver { t: 0, s: 0 };
const STEP: Event = Event::Step { s: 0 };
const LOSE: Event = Event::Lose { s: 0 };
const ANSWER: Event = Event::Answer { b: 0, a: 0 };

fn at(stage: Stage, round: u8) -> Station {
    Station { stage, round, claim: 5, held: 1, word: 9, decision: 3, ..IDLE }
}

impl Hand {
    /// A sentence of document 01, or what is tried.
    fn heading(&mut self, words: &str) {
        self.0.say(&format!("\n# {words}\n"));
    }

    /// A call, and the numbers that it has to answer.
    fn call(&mut self, command: Command, numbers: &[u64]) {
        let expected: String = numbers.iter().map(|x| format!(" {x}")).collect();
        self.told(command, &expected);
    }

    /// A call, and all that is written for it.
    fn told(&mut self, command: Command, expected: &str) {
        let words = command.words();
        assert_eq!(self.0.call(command), expected, "{words}");
    }

    fn make(&mut self, command: Command) {
        self.call(command, &[]);
    }

    fn event(&mut self, event: Event, number: u8) {
        self.call(Command::Play(event), &[number.into()]);
    }

    /// LOOK's number, whether decided, claim and votes.
    fn look(&mut self, s: u8, answer: [u64; 4]) {
        self.call(Command::Look(s), &answer);
    }

    /// Shows a station's entry as it stands.
    fn show(&mut self, s: u8) {
        self.0.call(Command::ShowStation(s));
    }

    /// A record made up from nothing: n stations, a rule, and the entry of station s.
    fn made(&mut self, n: u8, rule: u8, s: u8, station: Station) {
        self.0.call(Command::Open { n: 1, rule: 1 });
        self.make(Command::MakeHead { n, rule });
        self.make(Command::MakeStation(s, station));
    }

    /// Every event and LOOK of a faulty record give 42, and its entry stays.
    fn faulty(&mut self, n: u8, rule: u8, station: Station) {
        self.made(n, rule, 0, station);
        for event in [CLAIM, DELIVER, STEP, LOSE, ANSWER] {
            self.event(event, 42);
        }
        self.look(0, [42, 0, 0, 0]);
        self.look(255, [42, 0, 0, 0]);
        self.no_tally(64, 42);
        self.call(Command::ShowHead, &[n.into(), rule.into()]);
        let before = self.0.record.stations[0];
        assert_eq!(before, station, "a refused event leaves the very settlement it was given");
        self.show(0);
    }

    /// The record test is passed: LOOK answers so, and LOSE is accepted.
    fn sound(&mut self, n: u8, rule: u8, station: Station, look: [u64; 4]) {
        self.made(n, rule, 0, station);
        self.look(0, look);
        self.event(LOSE, 0);
        self.show(0);
    }

    fn columns(&mut self) {
        self.0.say("# What each line says after its call:\n");
        self.0.say("#   open, an event: its number\n");
        self.0.say("#   look: its number, 1 if decided, the claim, the votes\n");
        self.0.say("#   head: stations, rule\n");
        self.0.say("#   station: stage (0 idle, 1 waiting, 2 voting, 3 awaiting, 4 seeking, 5 voting and 6 awaiting on a finish ballot, 7 decided),\n");
        self.0.say("#     1 if lost, cursor j, round k, held (a mask of stations), claim, word d, decision\n");
        self.0.say("#   ballot: the masks of the stations that cast 0 and that cast 1, 1 if answered, the answer\n");
        self.0.say("#   tally, a look at a ballot: its number, both masks, how many stations are in each, 1 if answered, the answer\n");
        self.0.say("#   read: tag, the body's numbers (a byte, another, a claim), bytes taken; or the number of the refusal alone\n");
        self.0.say("#   body, rest: how many bytes, and which\n");
        self.0.say("#   run: events, bytes taken, status. length: the count of binary digits\n");
        self.0.say("#   compare: 1 and the place of the first bit that differs, or 0\n");
    }

    fn openings(&mut self) {
        self.heading(
            "OPEN. n is 0 or above 32: 40. Rule neither 1 nor 2: 41. Refused, it returns the blank settlement.",
        );
        for (n, rule, number) in [
            (0, 1, 40),
            (33, 2, 40),
            (33, 3, 40),
            (255, 1, 40),
            (0, 0, 40),
            (32, 3, 41),
            (1, 0, 41),
            (1, 255, 41),
            (1, 1, 0),
            (32, 1, 0),
            (1, 2, 0),
            (32, 2, 0),
        ] {
            self.made(32, 2, 0, Station { lost: true, cursor: 7, ..at(Decided, 9) });
            self.make(Command::MakeBallot(0, Ballot { cast: [u32::MAX; 2], answered: true, answer: true }));
            self.call(Command::Open { n, rule }, &[number]);
            let (n, rule) = if number == 0 { (n, rule) } else { (0, 1) };
            self.call(Command::ShowHead, &[n.into(), rule.into()]);
            self.call(Command::ShowStation(0), &[0; 8]);
            self.call(Command::ShowBallot(0), &[0; 4]);
            self.look(0, if number == 0 { [0; 4] } else { [1, 0, 0, 0] });
        }
        self.no_stations();
    }

    fn no_stations(&mut self) {
        self.heading("A record without stations has no ballots under either rule.");
        for rule in [1, 2] {
            self.make(Command::MakeHead { n: 0, rule });
            self.event(ANSWER, 9);
            for event in [CLAIM, DELIVER, STEP, LOSE] {
                self.event(event, 1);
            }
            self.look(0, [1, 0, 0, 0]);
        }
        self.heading("the blank settlement, whole");
        self.call(Command::Open { n: 33, rule: 2 }, &[40]);
        self.0.show_record();
    }

    fn case_s(&mut self) {
        self.heading(
            "Case S, event by event through the lent entries; after it some that are refused, and its answer again",
        );
        self.call(Command::Open { n: 2, rule: 1 }, &[0]);
        for (s, v) in [(0, 7), (1, 9)] {
            self.event(Event::Claim { s, v }, 0);
        }
        for (t, s) in [(0, 0), (1, 1), (1, 0)] {
            self.event(Event::Deliver { t, s }, 0);
        }
        let step = |s| Event::Step { s };
        for s in [0, 0, 1, 1] {
            self.event(step(s), 0);
        }
        self.event(Event::Answer { b: 0, a: 1 }, 0);
        for s in [0, 0, 1, 1, 1] {
            self.event(step(s), 0);
        }
        self.look(0, [0, 1, 9, 1]);
        self.look(1, [0, 1, 9, 1]);
        self.event(step(1), 7);
        self.event(Event::Lose { s: 1 }, 0);
        self.event(Event::Lose { s: 1 }, 2);
        self.look(1, [0, 1, 9, 1]);
        self.event(Event::Answer { b: 0, a: 1 }, 0);
        self.event(ANSWER, 11);
        self.call(Command::ShowStation(0), &[7, 0, 1, 0, 3, 7, 1, 9]);
        self.call(Command::ShowStation(1), &[7, 1, 1, 0, 2, 9, 1, 9]);
        self.call(Command::ShowStation(2), &[0; 8]);
        self.call(Command::ShowBallot(0), &[1, 2, 1, 1]);
        self.call(Command::ShowBallot(1), &[0; 4]);
        self.tally(0, [1, 2, 1, 1, 1, 1]);
        self.no_tally(1, 9);
    }

    fn looks(&mut self) {
        self.heading("LOOK s. No station s: 1. A refusal gives undecided, 0, 0.");
        self.call(Command::Open { n: 5, rule: 2 }, &[0]);
        self.make(Command::MakeStation(5, at(Decided, 3)));
        for s in [5, 6, 31, 32, 255] {
            self.look(s, [1, 0, 0, 0]);
        }
        self.heading("Votes: idle and waiting 0; rule 1 k when voting, k + 1 when awaiting or seeking, R when decided");
        for (stage, votes) in [(Idle, 0), (Waiting, 0), (Voting, 3), (Awaiting, 4), (Seeking, 4)] {
            self.sound(32, 1, at(stage, 3), [0, 0, 0, votes]);
        }
        for (n, votes) in [(1, 0), (2, 1), (3, 2), (4, 2), (16, 4), (17, 5), (32, 5)] {
            self.sound(n, 1, at(Decided, 200), [0, 1, 3, votes]);
        }
        self.heading("rule 2 2k before the bit vote, 2k + 1 after it and before the finish vote, 2k + 2 after");
        for (stage, votes) in [
            (Idle, 0),
            (Waiting, 0),
            (Voting, 62),
            (Awaiting, 63),
            (Seeking, 63),
            (VotingFinish, 63),
            (AwaitingFinish, 64),
        ] {
            self.sound(32, 2, at(stage, 31), [0, 0, 0, votes]);
        }
        self.sound(1, 2, at(Decided, 0), [0, 1, 3, 2]);
        self.sound(1, 2, at(Decided, 31), [0, 1, 3, 64]);
    }

    fn heads(&mut self) {
        self.heading("more than 32 stations; a rule other than 1 or 2: 42");
        for (n, rule) in [(33, 1), (33, 2), (255, 1), (32, 0), (32, 3), (1, 255), (0, 0), (0, 3), (33, 3)] {
            self.faulty(n, rule, IDLE);
        }
        for rule in [1, 2] {
            self.sound(32, rule, IDLE, [0; 4]);
        }
    }

    fn cursors(&mut self) {
        self.heading("a station below n whose cursor is n or more: 42");
        for rule in [1, 2] {
            for n in [1, 7, 32] {
                for stage in [Idle, Decided] {
                    self.faulty(n, rule, Station { cursor: n, ..at(stage, 0) });
                    let look = self.look_of(n, rule, Station { cursor: n - 1, ..at(stage, 0) });
                    self.sound(n, rule, Station { cursor: n - 1, ..at(stage, 0) }, look);
                }
            }
            self.faulty(7, rule, Station { cursor: 255, ..IDLE });
        }
    }

    /// Votes of two stages that both rules share: 0, and R or 2.
    fn look_of(&self, n: u8, rule: u8, station: Station) -> [u64; 4] {
        let rounds = [(1, 0), (7, 3), (32, 5)].iter().find(|(count, _)| *count == n).map_or(0, |(_, r)| *r);
        match (station.stage, rule) {
            (Decided, 1) => [0, 1, 3, rounds],
            (Decided, _) => [0, 1, 3, 2],
            _ => [0; 4],
        }
    }

    fn rounds(&mut self) {
        self.heading("a voting, awaiting or seeking station whose round is R or more under rule 1: 42");
        for (n, r) in [(2, 1), (3, 2), (17, 5), (32, 5)] {
            for (stage, votes) in [(Voting, r - 1), (Awaiting, r), (Seeking, r)] {
                self.faulty(n, 1, at(stage, r as u8));
                self.sound(n, 1, at(stage, r as u8 - 1), [0, 0, 0, votes]);
            }
        }
        self.faulty(1, 1, at(Voting, 0));
        self.heading("idle, waiting and decided stations may have any round under rule 1");
        for stage in [Idle, Waiting] {
            self.sound(2, 1, at(stage, 255), [0; 4]);
        }
        self.sound(2, 1, at(Decided, 255), [0, 1, 3, 1]);
        self.heading("a station past waiting whose round is 32 or more under rule 2: 42");
        for (stage, votes) in [(Voting, 62), (Awaiting, 63), (Seeking, 63), (VotingFinish, 63), (AwaitingFinish, 64)] {
            self.faulty(3, 2, at(stage, 32));
            self.sound(3, 2, at(stage, 31), [0, 0, 0, votes]);
        }
        self.faulty(3, 2, at(Decided, 32));
        self.sound(3, 2, at(Decided, 31), [0, 1, 3, 64]);
        for stage in [Idle, Waiting] {
            self.sound(3, 2, at(stage, 32), [0; 4]);
            self.sound(3, 2, at(stage, 255), [0; 4]);
        }
    }

    fn finish_stages(&mut self) {
        self.heading("a station voting or awaiting on a finish ballot under rule 1: 42");
        for stage in [VotingFinish, AwaitingFinish] {
            for n in [1, 2, 32] {
                self.faulty(n, 1, at(stage, 0));
            }
        }
        self.sound(2, 2, at(VotingFinish, 0), [0, 0, 0, 1]);
        self.sound(2, 2, at(AwaitingFinish, 0), [0, 0, 0, 2]);
    }

    fn past_the_stations(&mut self) {
        self.heading("entries from n on are no stations: they meet no test");
        for (rule, station) in [
            (1, Station { cursor: 255, ..at(AwaitingFinish, 255) }),
            (1, Station { cursor: 4, ..at(Voting, 5) }),
            (2, Station { cursor: 255, ..at(Decided, 255) }),
        ] {
            self.made(4, rule, 4, station);
            self.look(0, [0; 4]);
            self.look(4, [1, 0, 0, 0]);
            self.event(CLAIM, 0);
            self.event(Event::Step { s: 4 }, 1);
            self.event(Event::Deliver { t: 4, s: 0 }, 1);
            self.show(4);
            self.heading("the last station below n is tested");
            self.made(4, rule, 3, station);
            self.event(CLAIM, 42);
            self.look(0, [42, 0, 0, 0]);
        }
    }

    fn last_ballot(&mut self) {
        self.heading("Taking answer 0 from ballot 63, met only by a made-up record: 42.");
        let last = Station { word: 5, ..at(AwaitingFinish, 31) };
        let answered = |answer| Ballot { cast: [1, 2], answered: true, answer };
        self.made(2, 2, 0, last);
        self.event(STEP, 8);
        self.make(Command::MakeBallot(63, answered(false)));
        self.event(STEP, 42);
        self.show(0);
        self.look(0, [0, 0, 0, 64]);
        self.heading("lost goes before it; answer 1 decides; one ballot pair earlier, answer 0 goes on");
        self.make(Command::MakeStation(0, Station { lost: true, ..last }));
        self.event(STEP, 2);
        self.make(Command::MakeStation(0, last));
        self.make(Command::MakeBallot(63, answered(true)));
        self.event(STEP, 0);
        self.look(0, [0, 1, 5, 64]);
        self.call(Command::ShowStation(0), &[7, 0, 0, 31, 1, 5, 5, 5]);
        self.make(Command::MakeStation(0, Station { round: 30, ..last }));
        self.make(Command::MakeBallot(61, answered(false)));
        self.event(STEP, 0);
        self.call(Command::ShowStation(0), &[2, 0, 0, 31, 1, 5, 5, 3]);
    }

    /// Whole entries after each kind of step, from entries in which no part is 0.
    fn stays(&mut self) {
        self.heading("What a step does not name stays: whole entries after one event, no part of them 0 before");
        let full =
            Station { stage: Idle, lost: false, cursor: 1, round: 1, held: 0xff, claim: 6, word: 0xf0, decision: 77 };
        for (rule, after) in [(1, [1, 0, 1, 1, 255, 42, 240, 77]), (2, [1, 0, 1, 1, 255, 42, 240, 77])] {
            self.made(4, rule, 0, full);
            self.event(Event::Claim { s: 0, v: 42 }, 0);
            self.call(Command::ShowStation(0), &after);
            self.event(LOSE, 0);
            self.call(Command::ShowStation(0), &[1, 1, 1, 1, 255, 42, 240, 77]);
        }
        self.steps(full);
        self.takes(full);
    }

    fn steps(&mut self, full: Station) {
        let at = |stage| Station { stage, ..full };
        self.step_of(
            1,
            at(Waiting),
            [2, 0, 0, 1, 255, 6, 240, 77],
            "Waiting, own claim held: j becomes the station's own number",
        );
        self.step_of(2, at(Waiting), [2, 0, 0, 1, 255, 6, 240, 77], "the same under rule 2");
        self.step_of(1, at(Voting), [3, 0, 1, 1, 255, 6, 240, 77], "rule 1 casts bit k of j in ballot k");
        self.call(Command::ShowBallot(1), &[1, 0, 0, 0]);
        self.step_of(2, at(Voting), [3, 0, 1, 1, 255, 6, 240, 77], "Rule 2 casts bit k of the claim of j in ballot 2k");
        self.call(Command::ShowBallot(2), &[1, 0, 0, 0]);
        self.step_of(
            2,
            at(VotingFinish),
            [6, 0, 1, 1, 255, 6, 240, 77],
            "in ballot 2k+1 it casts 1 if d equals the whole claim of j",
        );
        self.call(Command::ShowBallot(3), &[1, 0, 0, 0]);
        self.step_of(
            1,
            at(Seeking),
            [4, 0, 2, 1, 255, 6, 240, 77],
            "Seeking: j becomes (j + 1) mod n; no match: it stays seeking",
        );
        self.step_of(
            1,
            Station { word: 2, ..at(Seeking) },
            [7, 0, 2, 1, 255, 6, 2, 0],
            "rule 1 decides the claim of j if k + 1 = R",
        );
        self.step_of(
            1,
            Station { round: 0, ..at(Seeking) },
            [2, 0, 2, 1, 255, 6, 240, 77],
            "otherwise adds 1 to k and is voting",
        );
        self.step_of(2, at(Seeking), [5, 0, 2, 1, 255, 6, 240, 77], "rule 2 is voting on ballot 2k+1");
    }

    fn step_of(&mut self, rule: u8, station: Station, after: [u64; 8], words: &str) {
        self.heading(words);
        self.made(4, rule, 0, station);
        self.event(STEP, 0);
        self.call(Command::ShowStation(0), &after);
    }

    fn takes(&mut self, full: Station) {
        let all = Ballot { cast: [5, 10], answered: true, answer: true };
        for (rule, stage, b, answer, after, words) in [
            (1, Awaiting, 1, true, [4, 0, 1, 1, 255, 6, 242, 77], "a bit answer becomes bit k of d, then seeking"),
            (2, Awaiting, 2, false, [4, 0, 1, 1, 255, 6, 240, 77], "the same under rule 2, answer 0"),
            (2, AwaitingFinish, 3, true, [7, 0, 1, 1, 255, 6, 240, 240], "Finish answer 1 decides d."),
            (2, AwaitingFinish, 3, false, [2, 0, 1, 2, 255, 6, 240, 77], "Finish answer 0 adds 1 to k, then voting."),
        ] {
            self.heading(words);
            self.made(4, rule, 0, Station { stage, ..full });
            self.event(STEP, 8);
            self.make(Command::MakeBallot(b, Ballot { answer, ..all }));
            self.event(STEP, 0);
            self.call(Command::ShowStation(0), &after);
            self.call(Command::ShowBallot(b), &[5, 10, 1, answer.into()]);
        }
        self.heading("With rule 1 and n = 1 it decides its own claim at once.");
        self.made(1, 1, 0, Station { stage: Waiting, cursor: 0, ..full });
        self.event(STEP, 0);
        self.call(Command::ShowStation(0), &[7, 0, 0, 1, 255, 6, 240, 6]);
    }

    fn orders(&mut self) {
        self.heading("Tests run in the order written: both met together");
        let lost = Station { lost: true, ..at(Decided, 0) };
        self.made(2, 1, 0, lost);
        for (event, number) in [
            (CLAIM, 2),
            (DELIVER, 2),
            (STEP, 2),
            (LOSE, 2),
            (Event::Deliver { t: 2, s: 0 }, 1),
            (Event::Deliver { t: 0, s: 2 }, 1),
            (Event::Deliver { t: 1, s: 0 }, 2),
            (Event::Answer { b: 1, a: 2 }, 9),
            (Event::Answer { b: 0, a: 2 }, 10),
            (Event::Answer { b: 0, a: 1 }, 12),
        ] {
            self.event(event, number);
        }
        self.heading("DELIVER: t has put in no claim, 4, before already held, 5; ANSWER: above 1, 10, before the other bit, 11, before not cast, 12");
        self.made(2, 1, 0, Station { held: 3, ..IDLE });
        self.event(Event::Deliver { t: 1, s: 0 }, 4);
        self.event(DELIVER, 4);
        self.event(CLAIM, 0);
        self.event(DELIVER, 5);
        self.make(Command::MakeBallot(0, Ballot { cast: [0; 2], answered: true, answer: false }));
        self.event(Event::Answer { b: 0, a: 2 }, 10);
        self.event(Event::Answer { b: 0, a: 1 }, 11);
    }

    /// Made up: who cast 0 and who cast 1 in a ballot, whether it is answered, and its answer.
    fn ballot(&mut self, b: u8, [zero, one, answered, answer]: [u32; 4]) {
        let ballot = Ballot { cast: [zero, one], answered: answered == 1, answer: answer == 1 };
        self.make(Command::MakeBallot(b, ballot));
    }

    /// ANSWER 0, a: its number, and the ballot afterwards.
    fn answer(&mut self, a: u8, number: u8, after: [u32; 4]) {
        self.event(Event::Answer { b: 0, a }, number);
        self.call(Command::ShowBallot(0), &after.map(u64::from));
    }

    /// A look at a ballot: both sets, how many are in each, answered, the answer.
    fn tally(&mut self, b: u8, answer: [u64; 6]) {
        self.call(Command::LookBallot(b), &[&[0][..], &answer].concat());
    }

    /// A look at a ballot that is refused: empty sets, counts 0 and no answer.
    fn no_tally(&mut self, b: u8, number: u8) {
        self.call(Command::LookBallot(b), &[number.into(), 0, 0, 0, 0, 0, 0]);
    }

    fn repeats(&mut self) {
        self.heading(
            "the answer a ballot already has is accepted again and changes nothing; 11 is for the other bit only",
        );
        for (zero, one) in [(0, 0), (1, 0), (0, 2), (3, 1)] {
            for a in [0, 1] {
                let stands = [zero, one, 1, a.into()];
                self.ballot(0, stands);
                self.event(Event::Answer { b: 0, a: 1 - a }, 11);
                self.answer(a, 0, stands);
            }
        }
        self.event(Event::Answer { b: 0, a: 2 }, 10);
        self.answer(1, 0, [3, 1, 1, 1]);
        self.unanswered();
        self.no_ballots();
        self.played_twice();
    }

    fn unanswered(&mut self) {
        self.heading("12 is met only where no answer stands, whatever the answer's mark is");
        for (a, before) in [(0, [0, 0, 0, 0]), (1, [0, 0, 0, 1]), (1, [1, 0, 0, 1]), (0, [0, 1, 0, 0])] {
            self.ballot(0, before);
            self.event(Event::Answer { b: 0, a }, 12);
        }
        self.ballot(0, [1, 0, 0, 1]);
        self.answer(0, 0, [1, 0, 1, 0]);
        self.answer(1, 11, [1, 0, 1, 0]);
    }

    fn no_ballots(&mut self) {
        self.heading("an answer in the entry of no ballot: 9; in a faulty record: 42; in the last ballot");
        for (n, rule, b, number) in [(32, 1, 5, 9), (0, 2, 0, 9), (33, 2, 0, 42), (2, 2, 63, 0)] {
            self.make(Command::MakeHead { n, rule });
            self.ballot(b, [0, 0, 1, 1]);
            self.event(Event::Answer { b, a: 1 }, number);
        }
        self.call(Command::ShowBallot(63), &[0, 0, 1, 1]);
    }

    fn played_twice(&mut self) {
        self.heading("A repeat counts as a played event: RUN");
        let voted = [Event::Claim { s: 0, v: 4 }, DELIVER, STEP, STEP, ANSWER];
        for (limit, a, numbers) in [(5, 0, [5, 31, 26]), (9, 0, [6, 36, 0]), (9, 1, [5, 31, 11])] {
            let log = written(2, 2, &[&voted[..], &[Event::Answer { b: 0, a }]].concat());
            self.call(Command::Run { limit, log }, &numbers);
            self.call(Command::ShowBallot(0), &[1, 0, 1, 0]);
        }
    }

    /// Sets and marks as they stand, whoever wrote them.
    fn tallies(&mut self) {
        self.heading(
            "A look at a ballot answers both sets, how many stations are in each, and the answer if there is one.",
        );
        self.made(2, 1, 0, IDLE);
        for (stands, counts, answered, answer) in [
            ([0, 0, 0, 0], [0, 0], 0, 0),
            ([0, 0, 0, 1], [0, 0], 0, 0),
            ([1, 2, 0, 1], [1, 1], 0, 0),
            ([1, 2, 1, 0], [1, 1], 1, 0),
            ([0, 3, 1, 1], [0, 2], 1, 1),
            ([3, 3, 1, 1], [2, 2], 1, 1),
            ([0, 0, 1, 1], [0, 0], 1, 1),
            ([0x8000_0000, 0xffff_fffc, 1, 0], [1, 30], 1, 0),
            ([u32::MAX, u32::MAX, 1, 1], [32, 32], 1, 1),
            ([0x5555_5555, 0x00ff_0100, 0, 0], [16, 9], 0, 0),
        ] {
            self.ballot(0, stands);
            let [zero, one] = [stands[0], stands[1]].map(u64::from);
            self.tally(0, [zero, one, counts[0], counts[1], answered, answer]);
        }
        self.beyond();
        self.no_tallies();
        self.voters();
        self.votes_again();
    }

    fn beyond(&mut self) {
        self.heading("A bit counts as cast exactly when its set is not empty: numbers from n on too");
        for (a, zero, one) in [(0, 4, 0), (0, 1 << 31, 0), (1, 0, 4), (1, 0, 0xffff_fffc)] {
            self.ballot(0, [zero, one, 0, 0]);
            self.event(Event::Answer { b: 0, a: 1 - a }, 12);
            self.answer(a, 0, [zero, one, 1, a.into()]);
        }
    }

    fn no_tallies(&mut self) {
        self.heading("It refuses with 42, then 9, and then gives empty sets, counts 0 and no answer.");
        for b in [0, 4, 5, 63] {
            self.ballot(b, [7, 8, 1, 1]);
        }
        for (n, rule, last) in [(17, 1, 4), (32, 1, 4), (2, 1, 0), (1, 2, 63), (32, 2, 63)] {
            self.make(Command::MakeHead { n, rule });
            self.tally(last, [7, 8, 3, 1, 1, 1]);
            self.no_tally(last + 1, 9);
        }
        self.no_tally(255, 9);
        for (n, rule, b, number) in [
            (17, 1, 63, 9),
            (17, 1, 64, 9),
            (1, 1, 0, 9),
            (0, 1, 0, 9),
            (0, 2, 0, 9),
            (33, 1, 0, 42),
            (33, 1, 255, 42),
            (17, 3, 0, 42),
            (0, 0, 64, 42),
        ] {
            self.make(Command::MakeHead { n, rule });
            self.no_tally(b, number);
        }
    }

    /// Stations 0, 1 and 2 cast bits 0 of 4, 5 and 6; then one of them is lost.
    fn voters(&mut self) {
        self.heading("who voted which way, from an opening; the voter may be lost since");
        self.call(Command::Open { n: 3, rule: 2 }, &[0]);
        let sets = [[1, 0, 1, 0, 0, 0], [1, 2, 1, 1, 0, 0], [5, 2, 2, 1, 0, 0]];
        for (s, v, after) in [(0, 4, sets[0]), (1, 5, sets[1]), (2, 6, sets[2])] {
            self.event(Event::Claim { s, v }, 0);
            self.event(Event::Deliver { t: s, s }, 0);
            self.event(Event::Step { s }, 0);
            self.event(Event::Step { s }, 0);
            self.tally(0, after);
        }
        self.event(Event::Lose { s: 2 }, 0);
        self.tally(0, sets[2]);
        self.event(Event::Answer { b: 0, a: 1 }, 0);
        self.tally(0, [5, 2, 2, 1, 1, 1]);
        self.tally(1, [0; 6]);
        self.event(Event::Deliver { t: 1, s: 0 }, 0);
        (0..3).for_each(|_| self.event(STEP, 0));
        self.call(Command::ShowStation(0), &[6, 0, 1, 0, 3, 4, 1, 0]);
        self.tally(1, [1, 0, 1, 0, 0, 0]);
        self.tally(0, [5, 2, 2, 1, 1, 1]);
    }

    /// Made up: station 0 is in a set already when it votes, its cursor at station 1; it casts bit 0 of 1.
    fn votes_again(&mut self) {
        self.heading("a voter that is in a set already: it is in the set of its bit once, and the other set stays");
        for (before, after) in [
            ([1, 1], [1, 1, 1, 1]),
            ([3, 0], [3, 1, 2, 1]),
            ([0, 2], [0, 3, 0, 2]),
            ([8, 0xffff_fffe], [8, 0xffff_ffff, 1, 32]),
        ] {
            self.made(2, 1, 0, Station { cursor: 1, ..at(Voting, 0) });
            self.ballot(0, [before[0], before[1], 0, 0]);
            self.event(STEP, 0);
            let [zero, one, zeros, ones] = after;
            self.tally(0, [zero, one, zeros, ones, 0, 0]);
        }
    }

    fn lengths(&mut self) {
        self.heading("The length of a claim is the count of its binary digits, with 1 for claim 0");
        for (v, digits) in
            [(0, 1), (1, 1), (2, 2), (3, 2), (4, 3), (7, 3), (8, 4), (1 << 31, 32), ((1 << 31) - 1, 31), (u32::MAX, 32)]
        {
            self.call(Command::Length(v), &[digits]);
        }
    }

    /// 02, A.4. Past the last bit of a claim there is nothing to differ.
    fn comparisons(&mut self) {
        self.heading("Compare bit k first and only then the bits below it, from bit 0 up");
        for (k, a, b, place) in [
            (0, 1, 0, Some(0)),
            (0, 2, 0, None),
            (2, 0b101, 0, Some(2)),
            (2, 0b100, 0, Some(2)),
            (3, 0b111, 0, Some(0)),
            (3, 0b110, 0, Some(1)),
            (2, 0b1000, 0, None),
            (4, 21, 21, None),
            (31, 0x8000_0001, 0, Some(31)),
            (31, 0x4000_0000, 0, Some(30)),
            (30, 0x8000_0000, 0, None),
            (32, 0x8000_0001, 0, Some(0)),
            (32, 0, 0x8000_0000, Some(31)),
            (64, 6, 2, Some(2)),
            (255, 0, 0x8000_0000, Some(31)),
            (255, u32::MAX, u32::MAX, None),
        ] {
            let answer = place.map_or(vec![0], |place| vec![1, place]);
            self.call(Command::Compare { k, a, b }, &answer);
        }
    }

    fn bodies(&mut self) {
        self.heading("READ and BODY: the caller's own bytes, or an empty part at the start where READ refuses");
        let note = |count| Field::Note((0..count).collect()).bytes();
        let long: String = (0..64).map(|byte| format!("{byte:02x}")).collect();
        for (field, read, body) in [
            (vec![0x01, 0, 2, 2, 1], " 1 2 1 0 5", " 2 0201"),
            (vec![0x10, 0, 5, 3, 1, 2, 3, 4], " 16 3 0 16909060 8", " 5 0301020304"),
            (vec![0x11, 0, 2, 9, 8], " 17 9 8 0 5", " 2 0908"),
            (vec![0x12, 0, 1, 7], " 18 7 0 0 4", " 1 07"),
            (vec![0x13, 0, 1, 6], " 19 6 0 0 4", " 1 06"),
            (vec![0x14, 0, 2, 5, 4], " 20 5 4 0 5", " 2 0504"),
            (note(0), " 48 0 0 0 3", " 0 "),
            (note(1), " 48 0 0 0 4", " 1 00"),
            (note(64), " 48 0 0 0 67", &format!(" 64 {long}")),
            (note(65), " 22", " 0 "),
            (vec![0x02, 0, 1, 7], " 21", " 0 "),
            (vec![0x12, 0, 0], " 22", " 0 "),
            (vec![0x12, 1, 1, 7], " 22", " 0 "),
            (vec![0x12, 0, 2, 7, 7], " 22", " 0 "),
        ] {
            for after in [vec![], vec![0x13, 0, 1, 2]] {
                let bytes = [field.clone(), after].concat();
                self.told(Command::Read(bytes.clone()), read);
                self.told(Command::Body(bytes), body);
            }
        }
        self.heading("Fewer than three bytes: 20. Body cut short: 23.");
        for (bytes, read) in [
            (vec![], " 20"),
            (vec![0x12], " 20"),
            (vec![0x02, 0], " 20"),
            (vec![0x10, 0, 5, 1, 2, 3, 4], " 23"),
            (vec![0x12, 0, 1], " 23"),
            (vec![0x30, 0, 64, 1], " 23"),
        ] {
            self.told(Command::Read(bytes.clone()), read);
            self.told(Command::Body(bytes), " 0 ");
        }
    }

    fn rests(&mut self) {
        self.heading("REST log, taken: the part from there, or an empty part at the end if taken exceeds the length");
        let log = vec![1, 0, 2, 1, 1, 0x12, 0, 1, 0];
        for (taken, rest) in [
            (0, " 9 010002010112000100"),
            (1, " 8 0002010112000100"),
            (5, " 4 12000100"),
            (8, " 1 00"),
            (9, " 0 "),
            (10, " 0 "),
            (255, " 0 "),
            (256, " 0 "),
            (u32::MAX, " 0 "),
        ] {
            self.told(Command::Rest { taken, log: log.clone() }, rest);
        }
        for taken in [0, 1] {
            self.told(Command::Rest { taken, log: vec![] }, " 0 ");
        }
    }

    fn limits(&mut self) {
        self.heading("RUN log, limit: case S with a note, under limits from 0 to one more than its events; LOOK at each station after it");
        let log = with_note();
        for (limit, numbers, looks) in [
            (0, [0, 5, 26], [[0, 0, 0, 0], [0, 0, 0, 0]]),
            (1, [1, 13, 26], [[0, 0, 0, 0], [0, 0, 0, 0]]),
            (3, [3, 26, 26], [[0, 0, 0, 0], [0, 0, 0, 0]]),
            (4, [4, 31, 26], [[0, 0, 0, 0], [0, 0, 0, 0]]),
            (5, [5, 41, 26], [[0, 0, 0, 0], [0, 0, 0, 0]]),
            (7, [7, 49, 26], [[0, 0, 0, 1], [0, 0, 0, 0]]),
            (12, [12, 70, 26], [[0, 1, 9, 1], [0, 0, 0, 1]]),
            (14, [14, 78, 26], [[0, 1, 9, 1], [0, 0, 0, 1]]),
            (15, [15, 82, 0], [[0, 1, 9, 1], [0, 1, 9, 1]]),
            (16, [15, 82, 0], [[0, 1, 9, 1], [0, 1, 9, 1]]),
            (u32::MAX, [15, 82, 0], [[0, 1, 9, 1], [0, 1, 9, 1]]),
        ] {
            self.call(Command::Run { limit, log: log.clone() }, &numbers);
            self.call(Command::ShowHead, &[2, 1]);
            self.look(0, looks[0]);
            self.look(1, looks[1]);
            self.look(2, [1, 0, 0, 0]);
            self.show(0);
            self.show(1);
            self.0.call(Command::ShowBallot(0));
        }
        self.stops();
    }

    fn stops(&mut self) {
        self.heading(
            "the limit goes before READ's numbers and 25; nothing left goes before the limit; OPEN's numbers and 24",
        );
        let opening = written(2, 1, &[]);
        for (limit, rest, numbers) in [
            (0, vec![], [0, 5, 0]),
            (0, vec![0x02], [0, 5, 26]),
            (1, vec![0x02], [0, 5, 20]),
            (0, opening.clone(), [0, 5, 26]),
            (1, opening.clone(), [0, 5, 25]),
            (1, vec![0x02, 0, 0], [0, 5, 21]),
            (1, vec![0x12, 0, 0], [0, 5, 22]),
            (1, vec![0x12, 0, 1], [0, 5, 23]),
        ] {
            self.call(Command::Run { limit, log: [opening.clone(), rest].concat() }, &numbers);
        }
        for (log, status) in [
            (vec![], 20),
            (vec![0x12, 0, 1, 0], 24),
            (vec![0x30, 0, 0], 24),
            (written(33, 3, &[]), 40),
            (written(1, 3, &[]), 41),
        ] {
            self.call(Command::Run { limit: 3, log }, &[0, 0, status]);
            self.call(Command::ShowHead, &[0, 1]);
            self.look(0, [1, 0, 0, 0]);
        }
    }
}

/// Case S, and a note after its fourth event.
fn with_note() -> Vec<u8> {
    let step = |s| Event::Step { s };
    let deliver = |t, s| Event::Deliver { t, s };
    let events = [
        [Event::Claim { s: 0, v: 7 }, Event::Claim { s: 1, v: 9 }, deliver(0, 0), deliver(1, 1), deliver(1, 0)],
        [step(0), step(0), step(1), step(1), Event::Answer { b: 0, a: 1 }],
        [step(0), step(0), step(1), step(1), step(1)],
    ]
    .concat();
    let (first, last) = events.split_at(4);
    let mut log = written(2, 1, first);
    log.extend(Field::Note(b"hi".to_vec()).bytes());
    last.iter().for_each(|event| log.extend(Field::Event(*event).bytes()));
    log
}
