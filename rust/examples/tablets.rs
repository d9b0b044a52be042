//! Three tablets claim one hold, and one of them goes flat. The same from C: `conformance/examples/tablets.c`.

use dagmuize::{Refusal, Rule, Settlement, Voters};

/// Steps until one is refused: the tablet waits for an answer, or has decided.
fn advance(hold: &mut Settlement, tablet: u8) {
    loop {
        if let Err(refusal) = hold.step(tablet) {
            println!("tablet {tablet} stops: {}", refusal.number());
            return;
        }
    }
}

/// Who cast which bit in a ballot, and the answer.
fn tally(hold: &Settlement, ballot: u8) -> Result<(), Refusal> {
    let tally = hold.look_ballot(ballot)?;
    let cast = |bit: u8, voters: Voters| {
        let tablets: String = voters.stations().map(|tablet| format!(" {tablet}")).collect();
        format!("{bit} cast by {} tablets:{tablets};", voters.count())
    };
    let answer = tally.answer.map_or("no answer".to_string(), |one| format!("answer {}", u8::from(one)));
    println!("ballot {ballot}: {} {} {answer}", cast(0, tally.zero), cast(1, tally.one));
    Ok(())
}

fn main() -> Result<(), Refusal> {
    let mut hold = Settlement::open(3, Rule::ByStation)?;
    for tablet in 0..3 {
        hold.claim(tablet, 401 + u32::from(tablet))?;
    }
    // each claim reaches every tablet, its own too
    for (from, to) in (0..9).map(|i| (i / 3, i % 3)) {
        hold.deliver(from, to)?;
    }
    // each votes in ballot 0 on bit 0 of its own number; then tablet 2 goes flat
    (0..3).for_each(|tablet| advance(&mut hold, tablet));
    hold.lose(2)?;
    tally(&hold, 0)?;
    // tablet 2's number is 10 in binary, lowest bit last: ballot 0 settles on 0 and ballot 1 on 1
    for ballot in 0..2 {
        hold.answer(ballot, ballot)?;
        (0..3).for_each(|tablet| advance(&mut hold, tablet));
        // an answer may come twice: it changes nothing then
        hold.answer(ballot, ballot)?;
        tally(&hold, ballot)?;
    }
    for (tablet, standing) in hold.look_all()?.iter().enumerate() {
        match standing.decided {
            Some(claim) => println!("tablet {tablet} shows {claim} after {} votes", standing.votes),
            None => println!("tablet {tablet} shows nothing after {} votes", standing.votes),
        }
    }
    // what is kept is read back, and a changed version byte is turned away
    let mut kept = hold.to_bytes();
    print!("{}", Settlement::from_bytes(&kept)?.report(0, 0, 0));
    kept[0] = 9;
    let refusal = Settlement::from_bytes(&kept).expect_err("no such version");
    println!("a changed version: {}", refusal.number());
    Ok(())
}
