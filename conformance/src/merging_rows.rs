//! MERGE by hand from document 02, A.5: rows with literal bytes, so that no error of `merging.rs` goes through because the subject makes it too; and
//! rows in words.

use crate::edges::bytes_of;
use crate::judge::{hex, Checked, Judge};
use crate::merging;
use crate::mergings::merge;

/// What it is, both logs in hex, and the one log in hex or the number.
type Row = (&'static str, &'static str, &'static str, Result<&'static str, u8>);

pub fn check(judge: &mut Judge) -> Checked {
    for (what, first, second, due) in MADE.iter().chain(&FAULTY).chain(&REFUSED) {
        row(judge, what, [bytes(first), bytes(second)], due.map(bytes))?;
    }
    for (what, first, second, due) in IN_WORDS {
        row(judge, what, [bytes_of(first), bytes_of(second)], Ok(bytes_of(due)))?;
    }
    for (what, first, second) in NO_ORDER {
        row(judge, what, [bytes_of(first), bytes_of(second)], Err(62))?;
    }
    Ok(())
}

/// The bytes that hex spells, blanks left out.
fn bytes(spelled: &str) -> Vec<u8> {
    let digits: Vec<u32> = spelled.chars().filter_map(|c| c.to_digit(16)).collect();
    digits.chunks(2).map(|pair| (16 * pair[0] + pair[1]) as u8).collect()
}

fn row(judge: &mut Judge, what: &str, logs: [Vec<u8>; 2], due: Result<Vec<u8>, u8>) -> Checked {
    let model = merging::merge(&logs[0], &logs[1]);
    if model != due {
        let [due, model] = [due, model].map(|answer| answer.map(|log| hex(&log)));
        return Err(format!("MERGE: {what}\n  by hand:   {due:?}\n  the model: {model:?}"));
    }
    merge(judge, &logs)
}

/// Of two stations by station. LOSE is 13, DELIVER 11, CLAIM 10, STEP 12, ANSWER 14, a note 30.
const MADE: [Row; 13] = [
    ("two openings alone", "0100020201", "0100020201", Ok("0100020201")),
    ("by claim, of 32 stations", "0100022002", "0100022002", Ok("0100022002")),
    ("the first's alone", "0100020201 13000101", "0100020201", Ok("0100020201 13000101")),
    ("the second's alone", "0100020201", "0100020201 13000101", Ok("0100020201 13000101")),
    ("the first's comes first", "0100020201 13000100", "0100020201 13000101", Ok("0100020201 13000100 13000101")),
    ("whichever station it is", "0100020201 13000101", "0100020201 13000100", Ok("0100020201 13000101 13000100")),
    (
        "the first's DELIVER waits for the second's CLAIM, and no longer",
        "0100020201 1100020100",
        "0100020201 1000050100000009 13000101",
        Ok("0100020201 1000050100000009 1100020100 13000101"),
    ),
    (
        "a sender may be the other log's",
        "0100020201 1000050000000007",
        "0100020201 1100020001 13000101",
        Ok("0100020201 1000050000000007 1100020001 13000101"),
    ),
    (
        "notes are dropped",
        "0100020201 300003686579 13000100 300000",
        "0100020201 30000113 30000413000101 13000101",
        Ok("0100020201 13000100 13000101"),
    ),
    (
        "an answer of both comes twice, the second's at the end",
        "0100020201 1000050000000007 1100020000 12000100 12000100 1400020000",
        "0100020201 1400020000",
        Ok("0100020201 1000050000000007 1100020000 12000100 12000100 1400020000 1400020000"),
    ),
    (
        "the first's answer waits for the second's vote",
        "0100020201 1400020000 13000101",
        "0100020201 1000050000000007 1100020000 12000100 12000100 12000100 1400020000",
        Ok("0100020201 1000050000000007 1100020000 12000100 12000100 1400020000 13000101 12000100 1400020000"),
    ),
    (
        "and comes before its next",
        "0100020201 1400020000",
        "0100020201 1000050000000007 1100020000 12000100 12000100 13000100 1400020000",
        Ok("0100020201 1000050000000007 1100020000 12000100 12000100 1400020000 13000100 1400020000"),
    ),
    (
        "the first's STEP waits for the second's answer",
        "0100020201 1000050000000007 1100020000 12000100 12000100 12000100 13000100",
        "0100020201 1400020000 13000101",
        Ok("0100020201 1000050000000007 1100020000 12000100 12000100 1400020000 12000100 13000100 13000101"),
    ),
];

/// Reading faults: of the first, then of the second, the earliest field deciding; no event is played.
const FAULTY: [Row; 32] = [
    ("nothing", "", "", Err(20)),
    ("nothing, and a good log", "", "0100020201", Err(20)),
    ("a good log, and nothing", "0100020201", "", Err(20)),
    ("two bytes of a field", "0100020201 1200", "0100020201", Err(20)),
    ("one byte, in the second", "0100020201", "0100020201 12", Err(20)),
    ("an unknown tag", "0100020201 15000100", "0100020201", Err(21)),
    ("an unknown tag, in the second", "0100020201", "0200020201", Err(21)),
    ("a length that is not in the table", "0100020201 1200020000", "0100020201", Err(22)),
    ("a note of 65, in the second", "0100020201", "0100020201 300041", Err(22)),
    ("a body cut short", "0100020201 10000500000000", "0100020201", Err(23)),
    ("an opening cut short, in the second", "0100020201", "01000202", Err(23)),
    ("an event first", "13000100 0100020201", "0100020201", Err(24)),
    ("a note first, in the second", "0100020201", "300000 0100020201", Err(24)),
    ("a second opening", "0100020201 0100020201", "0100020201", Err(25)),
    ("a second opening, in the second, with any numbers", "0100020201", "0100020201 13000100 010002ffff", Err(25)),
    ("no stations", "0100020001", "0100020201", Err(40)),
    ("33 stations and rule 3, in the second", "0100020201", "0100022103", Err(40)),
    ("rule 3", "0100022003", "0100020201", Err(41)),
    ("rule 0, in the second", "0100020201", "0100020100", Err(41)),
    ("the same fault of the opening in both", "0100020003", "0100020003", Err(40)),
    ("a fault of the first, and an earlier one of the second", "0100020201 ffffff", "13", Err(21)),
    ("no stations, and then an unknown tag", "0100020001 ffffff", "0100020201", Err(40)),
    ("a second opening, and then an unknown tag", "0100020201 0100020201 ffffff", "0100020201", Err(25)),
    ("an unknown tag, and then a second opening", "0100020201 ffffff 0100020201", "0100020201", Err(21)),
    ("a refused STEP, and then a byte", "0100020201 12000100 12", "0100020201", Err(20)),
    ("a refused STEP, and then a second opening", "0100020201", "0100020201 12000100 0100020201", Err(25)),
    ("a STEP of no station, and then a cut body", "0100020201 120001ff 130001", "0100020201", Err(23)),
    ("a fault of the second, and another rule", "0100020201", "0100020202 1200", Err(20)),
    ("a fault of the second, and other stations", "0100020201", "0100020301 0100020201", Err(25)),
    ("a fault of the second, and events of 0 in both", "0100020201 13000100", "0100020201 13000100 ff", Err(20)),
    ("a fault of the second, and the first is refused", "0100020201 12000100", "0100020201 120000", Err(22)),
    ("40 of the second, and the first is refused", "0100020201 12000100", "0100020001", Err(40)),
];

/// 60, 61 and 62 in order.
const REFUSED: [Row; 20] = [
    ("other stations", "0100020201", "0100020301", Err(60)),
    ("another rule", "0100020201", "0100020202", Err(60)),
    ("another rule, and events of 0 in both", "0100020201 13000100", "0100020202 13000100", Err(60)),
    ("other stations, and a refused event", "0100020201 12000100", "0100022001", Err(60)),
    ("LOSE in both", "0100020201 13000100", "0100020201 13000100", Err(61)),
    ("CLAIM and LOSE", "0100020201 1000050000000007", "0100020201 13000100", Err(61)),
    ("STEP and CLAIM", "0100020201 12000101", "0100020201 1000050100000007", Err(61)),
    ("LOSE and the receiver", "0100020201 13000101", "0100020201 1100020001", Err(61)),
    ("two receivers", "0100020201 1100020101", "0100020201 1100020001", Err(61)),
    ("a station that there is not", "0100020201 120001ff", "0100020201 130001ff", Err(61)),
    ("station 2 of two", "0100020201 12000102", "0100020201 1100020002", Err(61)),
    (
        "stations 63 and 64 apart from 127 and 191",
        "0100020201 1200013f 12000140",
        "0100020201 1200017f 120001bf",
        Err(62),
    ),
    ("a sender in both is nobody's", "0100020201 1100020500", "0100020201 1100020501", Err(62)),
    ("STEP of an idle station", "0100020201 12000100", "0100020201", Err(62)),
    ("STEP of an idle station, in the second", "0100020201", "0100020201 12000100", Err(62)),
    ("an answer without a vote, in both", "0100020201 1400020000", "0100020201 1400020000", Err(62)),
    ("bit 2", "0100020201 1400020002", "0100020201", Err(62)),
    ("no ballot 1", "0100020201", "0100020201 1400020100", Err(62)),
    ("the own order is kept: DELIVER, then CLAIM", "0100020201 1100020000 1000050000000007", "0100020201", Err(62)),
    (
        "different answers, each of them cast",
        "0100020201 1000050000000007 1100020000 12000100 12000100 1400020000",
        "0100020201 1000050100000009 1100020101 12000101 12000101 1400020001",
        Err(62),
    ),
];

/// What it is, both logs, and the one log.
const IN_WORDS: [(&str, &str, &str, &str); 3] = [
    (
        "case S, with its answer in the second log",
        "open 2 1; claim 0 7; deliver 0 0, 1 0; step 0, 0, 0, 0",
        "open 2 1; claim 1 9; deliver 1 1; step 1, 1; answer 0 1; step 1, 1, 1",
        "open 2 1; claim 0 7; deliver 0 0; claim 1 9; deliver 1 0; step 0, 0; \
         deliver 1 1; step 1, 1; answer 0 1; step 0, 0, 1, 1, 1",
    ),
    (
        "case S, with the logs in the other order",
        "open 2 1; claim 1 9; deliver 1 1; step 1, 1; answer 0 1; step 1, 1, 1",
        "open 2 1; claim 0 7; deliver 0 0, 1 0; step 0, 0, 0, 0",
        "open 2 1; claim 1 9; deliver 1 1; step 1, 1; answer 0 1; step 1, 1, 1; \
         claim 0 7; deliver 0 0, 1 0; step 0, 0, 0, 0",
    ),
    (
        "case C, with its answers in both",
        "open 2 2; claim 0 1; deliver 0 0, 1 0; step 0, 0; answer 0 1; step 0, 0, 0; answer 1 1; step 0",
        "open 2 2; claim 1 3; deliver 0 1, 1 1; step 1, 1; answer 0 1; step 1, 1, 1; answer 1 1; step 1",
        "open 2 2; claim 0 1; deliver 0 0; claim 1 3; deliver 1 0; step 0, 0; answer 0 1; step 0, 0, 0; \
         deliver 0 1, 1 1; step 1, 1; answer 0 1; step 1, 1, 1; answer 1 1; step 0; answer 1 1; step 1",
    ),
];

/// What it is, and two logs of which no order is accepted whole.
const NO_ORDER: [(&str, &str, &str); 6] = [
    ("each waits for the other's CLAIM", "open 2 1; deliver 1 0; claim 0 7", "open 2 1; deliver 0 1; claim 1 9"),
    (
        "the first waits for an answer, the second for a claim",
        "open 2 1; claim 0 7; deliver 0 0; step 0, 0, 0",
        "open 2 1; answer 0 1, 0 0",
    ),
    ("the second lost its station first", "open 2 1; claim 0 7", "open 2 1; lose 1; deliver 0 1"),
    ("two CLAIMs of one log", "open 2 1; claim 0 7, 0 7", "open 2 1; lose 1"),
    ("an answer in one log, the other bit later in it", "open 1 2; claim 0 1", "open 1 2; answer 0 1, 0 0"),
    (
        "the other bit at the end of the other log",
        "open 2 2; claim 0 1; deliver 0 0; step 0, 0; answer 0 1",
        "open 2 2; claim 1 2; deliver 1 1; step 1, 1; answer 0 1, 0 1, 0 0",
    ),
];
