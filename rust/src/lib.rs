//! Hold settlement: several stations claim the same hold, and the claim that stands is built out of ballots that settle
//! a yes or a no. Every function of the library below is proved; what is promised is told in the repository's README.
//!
//! Three tablets claim one hold. Tablet 2 goes flat after its first vote; the two others decide the same claim, here
//! that of tablet 2, which had reached them.
//!
//! ```
//! use dagmuize::{Rule, Settlement, Standing};
//!
//! let mut hold = Settlement::open(3, Rule::ByStation)?;
//! for (tablet, claim) in [(0, 401), (1, 402), (2, 403)] {
//!     hold.claim(tablet, claim)?;
//! }
//! // each claim reaches every tablet, its own too
//! for (from, to) in [(0, 0), (0, 1), (0, 2), (1, 0), (1, 1), (1, 2), (2, 0), (2, 1), (2, 2)] {
//!     hold.deliver(from, to)?;
//! }
//! // a step to begin, and a step that votes in ballot 0 on bit 0 of a tablet's number
//! for tablet in [0, 1, 2] {
//!     hold.step(tablet)?;
//!     hold.step(tablet)?;
//! }
//! // a refusal changes nothing, and its text says why
//! let refusal = hold.step(0).unwrap_err();
//! assert_eq!(refusal.number(), 8);
//! assert_eq!(refusal.to_string(), "8: the station waits for its own claim, or for the ballot's answer");
//!
//! hold.lose(2)?;
//! assert_eq!(hold.step(2).unwrap_err().number(), 2);
//!
//! // who voted which way, lost since or not
//! let tally = hold.look_ballot(0)?;
//! assert_eq!(tally.zero.stations().collect::<Vec<_>>(), [0, 2]);
//! assert_eq!((tally.one.count(), tally.answer), (1, None));
//!
//! // ballot 0 settles on 0, ballot 1 on 1: both bits of tablet 2's number
//! hold.answer(0, 0)?;
//! for tablet in [0, 1] {
//!     step_until_refused(&mut hold, tablet);
//! }
//! // an answer may come twice: it changes nothing then, and the other bit is refused
//! hold.answer(0, 0)?;
//! assert_eq!(hold.answer(0, 1).unwrap_err().number(), 11);
//! hold.answer(1, 1)?;
//! for tablet in [0, 1] {
//!     step_until_refused(&mut hold, tablet);
//! }
//! let standings = hold.look_all()?;
//! assert_eq!(standings[0], Standing { decided: Some(403), votes: 2 });
//! assert_eq!(standings[1], standings[0]);
//! assert_eq!(standings[2], Standing { decided: None, votes: 1 });
//!
//! // 1,283 bytes to keep, and what is no image is turned away
//! let mut kept = hold.to_bytes();
//! assert_eq!(Settlement::from_bytes(&kept)?, hold);
//! kept[0] = 9;
//! assert_eq!(Settlement::from_bytes(&kept).unwrap_err().number(), 81);
//!
//! fn step_until_refused(hold: &mut Settlement, tablet: u8) {
//!     while hold.step(tablet).is_ok() {}
//! }
//! # Ok::<(), dagmuize::Refusal>(())
//! ```

#![warn(missing_docs)]
#![deny(unsafe_code)]

#[allow(unsafe_code)]
pub mod bytes;
mod closing;
mod field;
mod log;
pub mod merging;
mod played;
mod refusal;
mod rule;
mod settlement;
mod standing;
mod tally;
mod text;

pub use closing::closing;
pub use field::Field;
pub use log::{Fields, Log};
pub use merging::merge;
pub use played::Played;
pub use refusal::Refusal;
pub use rule::Rule;
pub use settlement::Settlement;
pub use standing::Standing;
pub use tally::{Tally, Voters};
pub use text::Unclear;
