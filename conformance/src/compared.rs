//! Comparisons (document 02, A.4), and their sorts: among them those that another order would answer otherwise.

use std::iter;

/// "Compare bit k first and only then the bits below it, from bit 0 up. The comparison answers the first bit in this order that
/// differs, or none".
pub fn first_difference(k: u8, a: u32, b: u32) -> Option<u8> {
    let bit = |number: u32, i: u8| number.checked_shr(i.into()).unwrap_or(0) % 2;
    iter::once(k).chain(0..k).find(|&i| bit(a, i) != bit(b, i))
}

const NEWEST: &str = "in bit k alone, of the low k + 1";
const BOTH: &str = "in bit k and below it";
const SEVERAL: &str = "in several bits below k, and not in k";
const ONE: &str = "in one bit below k, and not in k";
const ABOVE: &str = "only above k";
const NEXT: &str = "in bit k + 1 alone";
const NOWHERE: &str = "nowhere";
const PAST: &str = "anywhere, with k past the last bit";

pub const SORTS: [&str; 8] = [NEWEST, BOTH, SEVERAL, ONE, ABOVE, NEXT, NOWHERE, PAST];

/// The sorts of a comparison up to bit k of words that differ in these bits.
pub fn sorts(k: u8, differing: u32) -> Vec<&'static str> {
    let bits: Vec<u8> = (0..32).filter(|i| differing >> i & 1 == 1).collect();
    let below = bits.iter().filter(|i| **i < k).count();
    let newest = bits.contains(&k);
    let sorts = [
        (newest && below == 0, NEWEST),
        (newest && below > 0, BOTH),
        (!newest && below > 1, SEVERAL),
        (!newest && below == 1, ONE),
        (!newest && below == 0 && !bits.is_empty(), ABOVE),
        (bits.len() == 1 && u16::from(bits[0]) == u16::from(k) + 1, NEXT),
        (bits.is_empty(), NOWHERE),
        (k >= 32 && !bits.is_empty(), PAST),
    ];
    sorts.into_iter().filter(|(holds, _)| *holds).map(|(_, sort)| sort).collect()
}
