//! Page words to and from Sv39 entries: the proved conversions against the second program's, on every word that can convert and
//! many that cannot, on every entry near one that converts, and on random numbers.
use crate::kernel::{Answer, VALUES};
use crate::lists::Seen;
use crate::random::Random;
use crate::second::{Conversions, FROM_SV39, TO_SV39};

extern "C" {
    fn yavrestom_to_sv39(word: u32, values: *mut u32, vn: usize) -> u32;
    fn yavrestom_from_sv39(entry: u64, values: *mut u32, vn: usize) -> u32;
}

const NAMES: [&str; 2] = ["to_sv39", "from_sv39"];

/// The rights that an entry can have, and those that it cannot.
const LEAF: [u64; 5] = [1, 3, 4, 5, 7];
const NO_LEAF: [u64; 3] = [0, 2, 6];

/// A proved conversion, with a place of any length for the values.
fn into(direction: u32, number: u64, values: &mut [u32]) -> u32 {
    let (v, vn) = (values.as_mut_ptr(), values.len());
    // the pointer is of a slice of this length
    unsafe {
        match direction {
            TO_SV39 => yavrestom_to_sv39(number as u32, v, vn),
            _ => yavrestom_from_sv39(number, v, vn),
        }
    }
}

fn proved(direction: u32, number: u64) -> Answer {
    let mut values = VALUES;
    let number = into(direction, number, &mut values);
    Answer {
        number,
        first: values[0],
        second: values[1],
    }
}

/// What the proved conversion answers, which must be this whatever the second program says.
fn demanded(direction: u32, number: u64, converts: bool) -> Result<u32, String> {
    let answer = proved(direction, number).number;
    if answer != if converts { 0 } else { 18 } {
        return Err(format!("{} {number:#x} answers {answer}", NAMES[direction as usize]));
    }
    Ok(answer)
}

/// What is asked in one direction, so many at a time.
struct Side {
    direction: u32,
    asked: Vec<u64>,
    done: u64,
    accepted: u64,
}

const AT_A_TIME: usize = 1 << 16;

impl Side {
    fn new(direction: u32) -> Side {
        Side {
            direction,
            asked: Vec::with_capacity(AT_A_TIME),
            done: 0,
            accepted: 0,
        }
    }

    fn ask(&mut self, second: &mut Conversions, number: u64) -> Result<(), String> {
        self.asked.push(number);
        if self.asked.len() == AT_A_TIME {
            return self.answer(second);
        }
        Ok(())
    }

    /// Both programs answer what was asked. Whatever they say, an answer is 18 with zeros, or 0 with a number that the way back
    /// makes of it again.
    fn answer(&mut self, second: &mut Conversions) -> Result<(), String> {
        let theirs = second.convert(self.direction, &self.asked);
        for (number, theirs) in self.asked.iter().zip(theirs) {
            let ours = proved(self.direction, *number);
            let what = NAMES[self.direction as usize];
            if ours != theirs {
                return Err(format!("{what} {number:#x}: proved {ours:?}, second program {theirs:?}"));
            }
            if ours.number == 0 {
                self.accepted += 1;
                let back = proved(1 - self.direction, ours.first.into());
                if (back.number, u64::from(back.first), back.second, ours.second) != (0, *number, 0, 0) {
                    return Err(format!("{what} {number:#x}: {ours:?}, and back {back:?}"));
                }
            } else if (ours.number, ours.first, ours.second) != (18, 0, 0) {
                return Err(format!("{what} {number:#x}: {ours:?} is no answer"));
            }
        }
        self.done += self.asked.len() as u64;
        self.asked.clear();
        Ok(())
    }

    /// Answers what is left; as many must have been accepted.
    fn finish(mut self, second: &mut Conversions, what: &str, accepted: u64) -> Result<(), String> {
        self.answer(second)?;
        println!("  {what}: {} asked, {} converted", self.done, self.accepted);
        if self.accepted != accepted {
            return Err(format!("{accepted} must convert"));
        }
        Ok(())
    }
}

/// How many words convert: 0, and those of five rights, two range bits and 4,096 frames.
const CONVERTIBLE: u64 = 1 + 5 * 2 * 4096;

/// All words of 17 bits, then those with one bit more, none of which converts.
fn words(second: &mut Conversions, seen: &mut Seen) -> Result<(), String> {
    let mut side = Side::new(TO_SV39);
    for word in 0..1 << 17 {
        side.ask(second, word)?;
        let rights = word >> 12 & 7;
        let (kind, converts) = match word {
            0 => ("unmapped".to_string(), true),
            1..=65_535 => ("outside".to_string(), false),
            _ => (format!("word_rights_{rights}"), LEAF.contains(&rights)),
        };
        let number = demanded(TO_SV39, word, converts)?;
        seen.note(format!("{kind}_{number}"));
    }
    for place in 17..32 {
        for word in 0..1 << 17 {
            side.ask(second, word | 1 << place)?;
        }
        let number = demanded(TO_SV39, 77_829 | 1 << place, false)?;
        seen.note(format!("word_bit_{place}_{number}"));
    }
    side.finish(second, "words of 17 bits, and with one bit more", CONVERTIBLE)
}

/// All entries of 23 bits: frames up to 8,191, with all that stands below them.
fn small_entries(second: &mut Conversions) -> Result<(), String> {
    let mut side = Side::new(FROM_SV39);
    for entry in 0..1 << 23 {
        side.ask(second, entry)?;
    }
    side.finish(second, "entries of 23 bits", CONVERTIBLE)
}

/// What a bit of an entry stands for.
#[derive(Clone, Copy, PartialEq, Debug)]
enum Kind {
    Always,
    Rights,
    Range,
    Frame,
    Above,
    Further,
}

fn kind(place: u32) -> Kind {
    match place {
        0 | 6 | 7 => Kind::Always,
        1..=3 => Kind::Rights,
        8 => Kind::Range,
        10..=21 => Kind::Frame,
        22..=53 => Kind::Above,
        _ => Kind::Further,
    }
}

/// Whether a bit of that kind may be set or clear.
fn is_free(place: u32) -> bool {
    matches!(kind(place), Kind::Rights | Kind::Range | Kind::Frame)
}

/// Whether the entry of a mapped page still converts with these bits flipped.
fn converts_still(flipped: u64, i: u32, j: u32) -> bool {
    is_free(i) && is_free(j) && LEAF.contains(&(flipped >> 1 & 7))
}

/// The bits of an entry flipped singly (i is j) and two at a time.
fn flips() -> impl Iterator<Item = (u32, u32)> {
    (0..64).flat_map(|i| (i..64).map(move |j| (i, j)))
}

/// Every entry that converts, with each bit and each two bits flipped.
fn flipped(second: &mut Conversions, seen: &mut Seen) -> Result<(), String> {
    let mut side = Side::new(FROM_SV39);
    let mut counts = [[0u64; 19]; 64];
    let mut rights = [0u64; 8];
    let mut converted = 0;
    for word in (0..1 << 17).filter(|w| proved(TO_SV39, *w).number == 0) {
        let entry = u64::from(proved(TO_SV39, word).first);
        for (i, j) in flips() {
            let near = entry ^ 1 << i ^ u64::from(i != j) << j;
            side.ask(second, near)?;
            let number = demanded(FROM_SV39, near, entry != 0 && converts_still(near, i, j))?;
            converted += u64::from(number == 0);
            if i == j && entry != 0 {
                counts[i as usize][number as usize] += 1;
                rights[(near >> 1 & 7) as usize] += u64::from(kind(i) == Kind::Rights);
            }
        }
    }
    if side.done + side.asked.len() as u64 != CONVERTIBLE * (64 + 64 * 63 / 2) {
        return Err(format!("{} entries with flipped bits", side.done));
    }
    for place in 0..64 {
        for number in [0, 18] {
            seen.add(flip(place, number), counts[place as usize][number]);
        }
    }
    for r in 0..8 {
        seen.add(format!("entry_rights_{r}"), rights[r]);
    }
    side.finish(second, "entries that convert, with one or two bits flipped", converted)
}

/// One bit flipped in entries of mapped pages, as the counts name it.
fn flip(place: u32, number: usize) -> String {
    format!("{:?}_{place}_{number}", kind(place)).to_lowercase()
}

/// Random numbers of 64 and 32 bits, and near entries.
fn random(second: &mut Conversions, count: u64, seed: u64) -> Result<(), String> {
    println!("  random: {count} words, {count} entries and {count} with V, A and D set, seed {seed}");
    let mut r = Random::new(seed);
    let mut entries = Side::new(FROM_SV39);
    let mut words = Side::new(TO_SV39);
    for _ in 0..count {
        entries.ask(second, r.next())?;
        // a random number is hardly ever near an entry that converts, so few other bits are set
        entries.ask(second, 0xc1 | r.next() & r.next() & r.next())?;
        words.ask(second, u64::from(r.word()))?;
    }
    entries.answer(second)?;
    words.answer(second)
}

/// A place of another length than two words: 1, and nothing is written.
fn places(seen: &mut Seen) -> Result<(), String> {
    for direction in [TO_SV39, FROM_SV39] {
        for number in [0, 77_829, 5_319, 1] {
            for length in [0, 1, 3, 4] {
                let mut values = vec![VALUES[0]; length];
                if into(direction, number, &mut values) != 1 || values != vec![VALUES[0]; length] {
                    return Err(format!("a place of {length} words is not refused"));
                }
                seen.note(format!("place_of_{length}"));
            }
        }
    }
    Ok(())
}

/// What must have been reached: each cause of a refusal by itself, and each bit that may be set or clear.
fn must() -> Vec<String> {
    let mut must: Vec<String> = ["unmapped_0", "outside_18"].map(String::from).to_vec();
    must.extend(LEAF.iter().map(|r| format!("word_rights_{r}_0")));
    must.extend(NO_LEAF.iter().map(|r| format!("word_rights_{r}_18")));
    must.extend((17..32).map(|p| format!("word_bit_{p}_18")));
    must.extend((0..8).map(|r| format!("entry_rights_{r}")));
    must.extend((0..64).filter(|p| is_free(*p)).map(|p| flip(p, 0)));
    must.extend((0..64).filter(|p| !is_free(*p)).map(|p| flip(p, 18)));
    must.extend([0, 1, 3, 4].map(|n| format!("place_of_{n}")));
    must
}

pub fn compare(count: u64, seed: u64) -> bool {
    let mut second = Conversions::start();
    let mut seen = Seen::default();
    println!("page words and Sv39 entries:");
    let compared = places(&mut seen)
        .and_then(|()| words(&mut second, &mut seen))
        .and_then(|()| small_entries(&mut second))
        .and_then(|()| flipped(&mut second, &mut seen))
        .and_then(|()| random(&mut second, count, seed));
    if let Err(what) = compared {
        println!("{what}\n  again: compare sv39 {count} {seed}");
        return false;
    }
    seen.report(&must())
}
