//! show, make, ballots, close and merge on random logs, from a fixed seed.

use dagmuize::{bytes, Field, Fields, Log, Settlement};

use crate::ballots::voted;
use crate::close::{self, closed};
use crate::make::made;
use crate::merge::{self, merged, Named};
use crate::show::shown;
use crate::verb::Answer;

/// Numbers that look random.
struct Rng(u64);

impl Rng {
    fn below(&mut self, end: usize) -> usize {
        self.0 = self.0.wrapping_mul(6_364_136_223_846_793_005).wrapping_add(1_442_695_040_888_963_407);
        (self.0 >> 33) as usize % end
    }

    /// A small number more often than not.
    fn byte(&mut self) -> u8 {
        let end = [3, 3, 3, 33, 256][self.below(5)];
        self.below(end) as u8
    }

    fn field(&mut self) -> Field {
        let (x, y) = (self.byte(), self.byte());
        match self.below(8) {
            0 => Field::Open { n: x, rule: y },
            1 => Field::Claim { s: x, v: self.below(1 << 31) as u32 * 2 + u32::from(y % 2) },
            2 => Field::Deliver { t: x, s: y },
            3 | 4 => Field::Step { s: x },
            5 => Field::Lose { s: x },
            6 => Field::Answer { b: x, a: y },
            _ => Field::Note((0..self.below(65)).map(|_| self.below(256) as u8).collect()),
        }
    }

    /// A log of fields that read; three of four begin with an opening.
    fn log(&mut self) -> Vec<u8> {
        let mut log = Log::new();
        if self.below(4) > 0 {
            log.put(&Field::Open { n: 1 + self.below(4) as u8, rule: 1 + self.below(2) as u8 }).expect("it has room");
        }
        for _ in 0..self.below(20) {
            log.put(&self.field()).expect("its note has at most 64 bytes");
        }
        log.into_bytes()
    }
}

/// The line that says where the log stops.
fn stop_line(text: &str, log: &[u8]) -> Option<String> {
    let place = bytes::taken(log, log.len());
    let here = format!("# {place}: stops with {}: ", bytes::status(log, log.len()));
    let stops: Vec<&str> = text.lines().filter(|line| line.contains(": stops with ") && line.contains(&here)).collect();
    stops.first().map(|line| line.to_string())
}

#[test]
fn show_and_make_are_inverse_on_logs_whose_fields_read() {
    let mut rng = Rng(20_261_116);
    let mut stopped = 0;
    for _ in 0..20_000 {
        let log = rng.log();
        let text = shown(&log);
        assert_eq!(text.wrong.is_some(), log.is_empty(), "only the empty log is said to be none");
        let back = made(&text.out);
        assert_eq!((&back.out, back.wrong), (&log, None));
        assert_eq!(shown(&back.out).out, text.out);
        let text = String::from_utf8(text.out).expect("it is ASCII");
        let stops = !log.is_empty() && bytes::status(&log, log.len()) != 0;
        assert_eq!(stop_line(&text, &log).is_some(), stops, "{text}");
        stopped += usize::from(stops);
    }
    assert!((10_000..20_000).contains(&stopped), "logs that stop and logs that do not: {stopped}");
}

#[test]
fn the_fields_before_one_that_does_not_read_are_shown() {
    let mut rng = Rng(3);
    let mut unread = 0;
    for _ in 0..20_000 {
        let mut log = rng.log();
        log.extend([&[9][..], &[0x12, 0], &[0x12, 0, 2, 0, 0], &[0x30, 0, 9, 1]][rng.below(4)]);
        let text = shown(&log);
        let wrong = text.wrong.expect("the last field does not read");
        let before = made(&text.out).out;
        assert!(log.starts_with(&before) && before.len() < log.len());
        let number = bytes::read_number(&log[before.len()..]);
        assert!(wrong.starts_with(&format!("byte {}: {number}: ", before.len())), "{wrong}");
        unread += usize::from(number > 20);
    }
    assert!(unread > 5_000);
}

#[test]
fn the_field_that_stops_has_the_number_and_its_words() {
    let log = made(b"open 2 1\nclaim 0 7\n\nclaim 0 8  # again\n  # and\nstep 9\n");
    assert_eq!(log.wrong, None);
    let text = String::from_utf8(shown(&log.out).out).expect("it is ASCII");
    let lines = [
        "open 2 1                # 0",
        "claim 0 7               # 5",
        "claim 0 8               # 13: stops with 3: the station has put in a claim already",
        "step 9                  # 21",
    ];
    assert_eq!(text, lines.map(|line| format!("{line}\n")).concat());
}

#[test]
fn an_answer_that_comes_again_stops_nothing_and_the_other_bit_does() {
    let log = made(b"open 2 1\nclaim 0 7\ndeliver 0 0\nstep 0\nstep 0\nanswer 0 0\nanswer 0 0\nanswer 0 1\nstep 0\n");
    let text = String::from_utf8(shown(&log.out).out).expect("it is ASCII");
    let lines = [
        "answer 0 0              # 26",
        "answer 0 0              # 31",
        "answer 0 1              # 36: stops with 11: the ballot has the other bit as its answer",
        "step 0                  # 41",
    ];
    assert!(text.ends_with(&lines.map(|line| format!("{line}\n")).concat()), "{text}");
}

#[test]
fn the_ballots_with_a_vote_are_shown_and_then_what_stops_the_log() {
    let claims = "open 3 2\nclaim 0 4\nclaim 1 5\nclaim 2 6\ndeliver 0 0\ndeliver 1 1\ndeliver 2 2\n";
    let votes = "step 0\nstep 0\nstep 1\nstep 1\nstep 2\nstep 2\nlose 2\nanswer 0 0\n";
    let on = "deliver 2 0\nstep 0\nstep 0\nstep 0\nstep 0\n";
    let log = made(format!("{claims}{votes}{on}lose 2\nstep 1\n").as_bytes()).out;
    let lines =
        ["ballot 0  cast 0: 0 2 (2)  cast 1: 1 (1)  answer 0", "ballot 1  cast 0: 0 (1)    cast 1: - (0)  answer -"];
    let [first, second] = lines.map(|line| format!("{line}\n"));
    let shown = |log: &[u8]| (String::from_utf8(voted(log).out).expect("it is ASCII"), voted(log).wrong);
    assert_eq!(shown(&log[..77]), (first.clone(), None));
    assert_eq!(shown(&log[..98]), (first.clone() + &second, None));
    let wrong = "byte 98: 2: the station is lost (of a DELIVER, the receiver)";
    assert_eq!(shown(&log), (first + &second, Some(wrong.to_string())));
}

#[test]
fn a_log_without_votes_has_no_lines() {
    for (text, wrong) in
        [("", "byte 0: 20: "), ("step 0", "byte 0: 24: "), ("open 33 1", "byte 0: 40: "), ("open 2 1", "")]
    {
        let Answer { out, wrong: said } = voted(&made(text.as_bytes()).out);
        assert_eq!((out.is_empty(), said.is_some()), (true, !wrong.is_empty()), "{text}");
        assert!(said.unwrap_or_default().starts_with(wrong), "{text}");
    }
}

/// A log of accepted events, and at its end one that may be refused.
fn accepted(rng: &mut Rng) -> Vec<u8> {
    let opening = [&b"open 3 1\n"[..], b"open 3 2\n"][rng.below(2)];
    let claims = b"claim 0 4\nclaim 1 5\nclaim 2 6\ndeliver 0 0\ndeliver 1 1\ndeliver 2 2\n";
    let mut log = made(&[opening, claims].concat()).out;
    for left in (0..150).rev() {
        let field = rng.field();
        // few are lost, so that many vote
        if matches!(field, Field::Lose { .. }) && rng.below(9) > 0 {
            continue;
        }
        let mut longer = Log::new();
        longer.put(&field).expect("its note has at most 64 bytes");
        let longer = [&log[..], longer.as_bytes()].concat();
        if left == 0 || bytes::status(&longer, longer.len()) == 0 {
            log = longer;
        }
    }
    log
}

/// A log that stops says where and why, and the lines have every vote of the stations.
#[test]
fn ballots_shows_every_vote_of_random_logs() {
    let mut rng = Rng(7);
    let (mut votes, mut stopped) = (0, 0);
    for _ in 0..2000 {
        let log = accepted(&mut rng);
        let shown = voted(&log);
        let (status, taken) = (bytes::status(&log, log.len()), bytes::taken(&log, log.len()));
        assert_eq!(shown.wrong.is_some(), status != 0);
        assert!(shown.wrong.is_none_or(|wrong| wrong.starts_with(&format!("byte {taken}: {status}: "))));
        let standings = Settlement::play(&log, log.len()).settlement.look_all().expect("it is opened");
        let cast: usize = standings.iter().map(|standing| usize::from(standing.votes)).sum();
        let text = String::from_utf8(shown.out).expect("it is ASCII");
        let counts = text.split(['(', ')']).skip(1).step_by(2).map(|count| count.parse::<usize>().expect("a count"));
        assert_eq!(counts.sum::<usize>(), cast, "{text}");
        votes += cast;
        stopped += usize::from(status != 0);
    }
    assert!(votes > 4000 && (1000..2000).contains(&stopped), "{votes} votes, {stopped} logs that stop");
}

/// A log that stops is not closed. Another is the beginning of what is printed, which plays to the end and has nothing
/// left to close.
#[test]
fn close_brings_random_logs_to_their_end() {
    let mut rng = Rng(18);
    let (mut stopped, mut longer) = (0, 0);
    for _ in 0..2000 {
        let log = accepted(&mut rng);
        let (status, taken) = (bytes::status(&log, log.len()), bytes::taken(&log, log.len()));
        let Answer { out, wrong } = closed(log.clone(), rng.below(2) as u8);
        if status != 0 {
            assert!(out.is_empty(), "a log that stops is not closed");
            assert!(wrong.expect("it is said").starts_with(&format!("byte {taken}: {status}: ")));
            stopped += 1;
            continue;
        }
        assert_eq!((wrong, &out[..log.len()]), (None, &log[..]));
        let played = Settlement::play(&out, out.len());
        assert_eq!(played.status(), 0);
        let standing = |line: &str| line.contains(" decided ") || line.ends_with(" lost") || line.contains(" idle ");
        assert!(played.report().lines().skip(1).all(standing), "{}", played.report());
        longer += usize::from(out.len() > log.len());
        [0, 1].into_iter().for_each(|bit| assert_eq!(closed(out.clone(), bit).out, out, "it is closed"));
    }
    assert!(stopped > 500 && longer > 200, "{stopped} logs that stop, {longer} that are closed");
}

#[test]
fn close_prefers_a_bit_where_it_was_cast() {
    let shown = |text: &str, bit: u8| String::from_utf8(shown(&closed(made(text.as_bytes()).out, bit).out).out);
    let answers = |text: &str, bit: u8| -> Vec<String> {
        let text = shown(text, bit).expect("it is ASCII");
        let answers = text.lines().filter(|line| line.starts_with("answer"));
        answers.map(|line| line.split('#').next().unwrap_or("").trim().to_string()).collect()
    };
    let two = "open 2 1\nclaim 0 7\nclaim 1 9\n";
    assert_eq!([answers(two, 0), answers(two, 1)], [["answer 0 0"], ["answer 0 1"]]);
    let one = "open 2 1\nclaim 0 7\n";
    assert_eq!([answers(one, 0), answers(one, 1)], [["answer 0 0"]; 2]);
}

#[test]
fn close_takes_a_bit_that_is_0_or_1() {
    let takes = |words: &[&str]| (close::VERB.takes)(&words.iter().map(|word| word.into()).collect::<Vec<_>>());
    assert!(takes(&["f"]) && takes(&["f", "0"]) && takes(&["f", "1"]) && takes(&["-", "1"]));
    let bad: [&[&str]; 8] =
        [&[], &["f", "2"], &["f", ""], &["f", "01"], &["f", "-1"], &["f", "x"], &["f", "0", "1"], &["f", "f"]];
    assert!(bad.iter().all(|words| !takes(words)));
}

/// What ./log merge answers for two logs.
fn merge(first: &[u8], second: &[u8]) -> Answer {
    let named = |name: &str, log: &[u8]| Named { name: name.to_string(), log: log.to_vec() };
    merged(&[named("a.log", first), named("b.log", second)])
}

fn fields(log: &[u8]) -> Vec<Field> {
    Fields::of(log).map(|(_, field)| field.expect("it reads")).collect()
}

/// The fields without the notes.
fn events(log: &[u8]) -> Vec<Field> {
    fields(log).into_iter().filter(|field| !matches!(field, Field::Note(_))).collect()
}

fn log_of<'a>(fields: impl IntoIterator<Item = &'a Field>) -> Vec<u8> {
    let mut log = Log::new();
    fields.into_iter().for_each(|field| log.put(field).expect("its note has at most 64 bytes"));
    log.into_bytes()
}

/// The fields of one evening as two kiosks keep them: a station's events in the log of one, an answer or a note in either or
/// in both.
fn kept_by_two(rng: &mut Rng, evening: &[Field]) -> [Vec<u8>; 2] {
    let mut logs = [vec![evening[0].clone()], vec![evening[0].clone()]];
    let first = rng.below(8) as u8;
    for field in &evening[1..] {
        let at = match field.owner() {
            Some(s) => [first >> s.min(2) & 1 == 1, first >> s.min(2) & 1 == 0],
            None => [[true, true], [true, false], [false, true]][rng.below(3)],
        };
        logs.iter_mut().zip(at).filter(|(_, at)| *at).for_each(|(log, _)| log.push(field.clone()));
    }
    logs.map(|log| log_of(&log))
}

/// What two kiosks keep of one evening is made one log: nothing stops it, each log's order is kept, and it ends as the
/// evening did.
#[test]
fn merge_makes_one_evening_of_what_two_kiosks_kept() {
    let mut rng = Rng(5);
    let mut waited = 0;
    for _ in 0..2000 {
        let log = accepted(&mut rng);
        let evening = fields(&log[..bytes::taken(&log, log.len())]);
        let logs = kept_by_two(&mut rng, &evening);
        let Answer { out, wrong } = merge(&logs[0], &logs[1]);
        assert_eq!(wrong, None);
        let (one, whole) = (Settlement::play(&out, out.len()), Settlement::play(&log, log.len()));
        assert_eq!((one.status(), one.settlement), (0, whole.settlement));
        assert_eq!(fields(&out), events(&out), "notes are dropped");
        let (one, [first, second]) = (events(&out), logs.each_ref().map(|log| events(log)));
        assert_eq!(one.len() + 1, first.len() + second.len(), "no event is lost or new");
        for kept in [first, second] {
            let mut rest = one.iter();
            assert!(kept.iter().all(|event| rest.any(|field| field == event)), "its own order is kept");
        }
        waited += usize::from(bytes::status(&logs[0], logs[0].len()) != 0);
    }
    assert!(waited > 500, "first logs that wait for the second: {waited}");
}

/// Whether some order that keeps both is accepted whole after the fields before.
fn some_order(before: &[Field], first: &[Field], second: &[Field]) -> bool {
    let log = log_of(before);
    let then = |next: &Field| [before, std::slice::from_ref(next)].concat();
    bytes::status(&log, log.len()) == 0
        && (first.is_empty() && second.is_empty()
            || first.split_first().is_some_and(|(next, rest)| some_order(&then(next), rest, second))
            || second.split_first().is_some_and(|(next, rest)| some_order(&then(next), first, rest)))
}

/// Random logs with the same opening: 61 names the lowest station of both, 62 is said where no order will do, and where.
#[test]
fn merge_says_why_two_logs_are_not_made_one() {
    let mut rng = Rng(62);
    let mut met = [0; 3];
    for _ in 0..20_000 {
        let opening = Field::Open { n: 1 + rng.below(3) as u8, rule: 1 + rng.below(2) as u8 };
        let mut events = || -> Vec<Field> {
            let fields = (0..rng.below(5)).map(|_| rng.field());
            fields.filter(|field| !matches!(field, Field::Open { .. } | Field::Note(_))).collect()
        };
        let [first, second] = [events(), events()];
        let both = (0..=255).find(|s| [&first, &second].iter().all(|log| log.iter().any(|e| e.owner() == Some(*s))));
        let opening = std::slice::from_ref(&opening);
        let log = |events: &[Field]| log_of(&[opening, events].concat());
        let Answer { out, wrong } = merge(&log(&first), &log(&second));
        let said = wrong.unwrap_or_default();
        assert_eq!(out.is_empty(), !said.is_empty());
        let kind = match (both, some_order(opening, &first, &second)) {
            (Some(s), _) => {
                assert_eq!(said, format!("61: station {s} has events in both logs"));
                1
            }
            (None, false) => {
                assert!(said.starts_with("62: ") && said.contains(".log stops at byte "), "{said}");
                2
            }
            (None, true) => {
                assert_eq!(said, "");
                0
            }
        };
        met[kind] += 1;
    }
    assert!(met.iter().all(|times| *times > 1000), "made one, 61, 62: {met:?}");
}

#[test]
fn merge_names_the_file_and_the_byte() {
    let said = |first: &str, second: &str, more: &[u8]| {
        let log = |text: &str| made(text.replace(';', "\n").as_bytes()).out;
        let Answer { out, wrong } = merge(&log(first), &[&log(second)[..], more].concat());
        assert!(out.is_empty());
        wrong.expect("it is wrong")
    };
    let second = "b.log: byte 9: 21: no field has this tag";
    assert_eq!(said("open 2 1;step 0", "open 3 1;step 0", &[9, 0, 0]), second);
    let first = "a.log: byte 5: 25: a second opening";
    assert_eq!(said("open 2 1;open 2 1", "open 2 1", &[9, 0, 0]), first);
    let openings = "60: the logs' openings differ: a.log has open 2 1, b.log has open 2 2";
    assert_eq!(said("open 2 1;step 0", "open 2 2;step 0", &[]), openings);
    assert_eq!(said("open 2 1;step 9;answer 0 1", "open 2 1;lose 9", &[]), "61: station 9 has events in both logs");
    let stuck = "62: no order of both logs' events that keeps each log's own is accepted whole: ";
    let one = "a.log stops at byte 5 with 4: the sender has put in no claim";
    let other = "b.log stops at byte 9 with 2: the station is lost (of a DELIVER, the receiver)";
    let lost = "open 2 1;lose 1;claim 1 9";
    assert_eq!(said("open 2 1;deliver 1 0", lost, &[]), format!("{stuck}{one}; {other}"));
    assert_eq!(said("open 2 1;lose 0;note \"hi\"", lost, &[]), format!("{stuck}{other}"));
}

#[test]
fn merge_takes_standard_input_once() {
    let takes = |words: &[&str]| (merge::VERB.takes)(&words.iter().map(|word| word.into()).collect::<Vec<_>>());
    assert!(takes(&["a", "b"]) && takes(&["-", "b"]) && takes(&["a", "-"]) && takes(&["a", "a"]));
    let bad: [&[&str]; 4] = [&[], &["a"], &["-", "-"], &["a", "b", "c"]];
    assert!(bad.iter().all(|words| !takes(words)));
}

#[test]
fn a_bad_line_gets_its_number_and_no_byte_is_made() {
    let wrong = |text: &str| {
        let answer = made(text.as_bytes());
        assert!(answer.out.is_empty());
        answer.wrong.expect("it is wrong")
    };
    assert_eq!(wrong("open 2 1\nclaim 0\nstep x"), "line 2: claim takes a station and a claim");
    assert_eq!(wrong("# x\r\n\r\nstep 256\r\n"), "line 3: '256' is no number from 0 to 255");
    let long = format!("note \"{}\"", "a".repeat(65));
    assert_eq!(wrong(&long), "line 1: 22: a length that such a field does not have (a note has 64 bytes at most)");
    assert_eq!(made(b"step 1\n\xff").wrong, Some("line 2: it is no text in UTF-8".to_string()));
}
