//! Page words to and from Sv39 leaf entries, bit by bit in the standard's terms.

use std::ops::Range;

use crate::unit::Rules;
use crate::words::Outcome;

// Places in an entry.
pub const V: u32 = 0;
pub const R: u32 = 1;
pub const W: u32 = 2;
pub const X: u32 = 3;
const U: u32 = 4;
const G: u32 = 5;
pub const A: u32 = 6;
const D: u32 = 7;
/// The two bits left to software: our range bit, and one that we do not use.
const SOFTWARE: [u32; 2] = [8, 9];
/// The physical page number, our frame.
const PPN: Range<u32> = 10..54;
/// The bits above it, which the standard reserves or has for its extensions.
const UPPER: Range<u32> = 54..64;

// Places in a page word.
const FRAME: Range<u32> = 0..12;
const READ: u32 = 12;
const WRITE: u32 = 13;
const EXECUTE: u32 = 14;
const IN_RANGE: u32 = 15;
const MAPPED: u32 = 16;
/// Clear in every word.
const UNUSED: Range<u32> = 17..32;

/// Why an entry that is not all zero has no word.
#[derive(Clone, Copy, PartialEq, Eq, Debug)]
pub enum Cause {
    /// V, A or D is clear, by its place.
    Clear(u32),
    /// A further bit is set, by its place.
    Further(u32),
    FrameAbove,
    Rights,
}

pub fn is_set(bits: u64, place: u32) -> bool {
    bits >> place & 1 == 1
}

/// The bits at those places that go with true.
fn made_of(places: impl IntoIterator<Item = (u32, bool)>) -> u32 {
    let set = places.into_iter().filter(|(_, set)| *set);
    set.fold(0, |bits, (place, _)| bits | 1 << place)
}

/// The places of our range bit and of the other bit left to software.
fn software_places(rules: &Rules) -> (u32, u32) {
    let [eight, nine] = SOFTWARE;
    match rules.range_at_nine {
        true => (nine, eight),
        false => (eight, nine),
    }
}

pub fn range_place(rules: &Rules) -> u32 {
    software_places(rules).0
}

/// The number in bits 10 to 53.
pub fn frame_in(entry: u64) -> u64 {
    let set = PPN.filter(|&place| is_set(entry, place));
    set.fold(0, |frame, place| frame | 1 << (place - PPN.start))
}

/// Whether a leaf may have read, write and execute so: rights 0 are no leaf's, 2
/// and 6 are reserved.
fn leaf_has(rights: [bool; 3]) -> bool {
    let [read, write, execute] = rights;
    match (read, write) {
        (true, _) => true,
        (false, true) => false,
        (false, false) => execute,
    }
}

/// The first cause, in the order of document 02, why an entry that is not all
/// zero has no word.
fn cause(entry: u64, rules: &Rules) -> Option<Cause> {
    let has = |place: &u32| is_set(entry, *place);
    if let Some(place) = [V, A, D].into_iter().find(|place| !has(place)) {
        return Some(Cause::Clear(place));
    }
    let upper = UPPER.filter(|_| !rules.further_passes);
    let mut further = [U, G, software_places(rules).1].into_iter().chain(upper);
    if let Some(place) = further.find(has) {
        return Some(Cause::Further(place));
    }
    let most = if rules.frame_above { 4096 } else { 4095 };
    if frame_in(entry) > most {
        return Some(Cause::FrameAbove);
    }
    if !leaf_has([R, W, X].map(|place| has(&place))) {
        return Some(Cause::Rights);
    }
    None
}

/// The entry of a page word, or 18.
pub fn to_sv39(word: u32, rules: &Rules) -> Outcome {
    if word == 0 {
        return Ok((0, 0));
    }
    let has = |place| is_set(word.into(), place);
    let in_layout = has(MAPPED) && UNUSED.map(has).all(|set| !set);
    if !in_layout || !leaf_has([READ, WRITE, EXECUTE].map(has)) {
        return Err(18);
    }
    let flags = [
        (V, true),
        (R, has(READ)),
        (W, has(WRITE)),
        (X, has(EXECUTE)),
        (A, true),
        (D, !rules.clean),
        (range_place(rules), has(IN_RANGE)),
    ];
    let frame = FRAME.map(|place| (PPN.start + place, has(place)));
    Ok((made_of(flags.into_iter().chain(frame)), 0))
}

/// The page word of an entry, or why it has none.
pub fn word_of(entry: u64, rules: &Rules) -> Result<u32, Cause> {
    if entry == 0 {
        return Ok(0);
    }
    if let Some(cause) = cause(entry, rules) {
        return Err(cause);
    }
    let has = |place| is_set(entry, place);
    let flags = made_of([
        (MAPPED, true),
        (READ, has(R)),
        (WRITE, has(W)),
        (EXECUTE, has(X)),
        (IN_RANGE, has(range_place(rules))),
    ]);
    // A sum, as the layout has it: the planted bug's frame 4,096 carries.
    Ok(flags + frame_in(entry) as u32)
}

/// The page word of an entry, or 18.
pub fn from_sv39(entry: u64, rules: &Rules) -> Outcome {
    match word_of(entry, rules) {
        Ok(word) => Ok((word, 0)),
        Err(_) => Err(18),
    }
}
