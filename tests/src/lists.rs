//! Random lists of calls: after each call every word of the buffers and of the units is the same as the second program's.
use crate::kernel::*;
use crate::random::Random;
use crate::rights::RESERVED;
use crate::second::Second;
use crate::wishes::{self, first_wish, page_to_grow};
use std::cmp::Ordering;
use std::collections::BTreeMap;

/// How often each thing occurred.
#[derive(Default)]
pub struct Seen(pub BTreeMap<String, u64>);

impl Seen {
    pub fn note(&mut self, what: impl Into<String>) {
        self.add(what, 1);
    }

    pub fn add(&mut self, what: impl Into<String>, times: u64) {
        if times > 0 {
            *self.0.entry(what.into()).or_default() += times;
        }
    }

    /// Prints the counts; false where one that must occur did not.
    pub fn report(&self, must: &[String]) -> bool {
        let counts: Vec<String> = self.0.iter().map(|(k, v)| format!("{k} {v}")).collect();
        println!("  {}", counts.join(", "));
        let missing: Vec<&String> = must.iter().filter(|w| self.0.get(*w).copied().unwrap_or(0) == 0).collect();
        if !missing.is_empty() {
            println!("  not reached: {missing:?}");
        }
        missing.is_empty()
    }
}

/// The first word that differs, in words.
fn difference(a: &World, b: &World) -> String {
    for (name, x, y) in [
        ("control", &a.control, &b.control),
        ("frames", &a.frames, &b.frames),
        ("pages", &a.pages, &b.pages),
        ("ranges", &a.ranges, &b.ranges),
        ("unit", &a.unit, &b.unit),
    ] {
        if x.len() != y.len() {
            return format!("{name}: lengths {} and {}", x.len(), y.len());
        }
        if let Some(i) = (0..x.len()).find(|&i| x[i] != y[i]) {
            return format!("{name} word {i}: proved {}, second program {}", x[i], y[i]);
        }
    }
    "nothing".to_string()
}

/// What a preview has to answer: the proved map on a copy, followed, where accepted, by counting.
fn map_on_a_copy(world: &World, call: Call) -> Answer {
    let mut copy = world.clone();
    let mapped = copy.call(Call { kind: MAP, ..call });
    let (first, second) = match mapped.number {
        0 => (mapped.first, copy.ranges_used(call.arguments[0])),
        _ => (0, 0),
    };
    Answer { first, second, ..mapped }
}

/// Makes one call both ways; the answer, or what differs. A refusal alters no word, nor does a preview.
fn both(second: &mut Second, world: &mut World, call: Call) -> Result<Answer, String> {
    let before = world.clone();
    let mut other = world.clone();
    let theirs = second.call(&mut other, call);
    let ours = world.call(call);
    if ours != theirs {
        return Err(format!("{call:?}: proved {ours:?}, second program {theirs:?}"));
    }
    if *world != other {
        return Err(format!("{call:?} {ours:?}: {}", difference(world, &other)));
    }
    let previews = call.kind == PREVIEW;
    if (ours.number != 0 || previews) && *world != before {
        return Err(format!("{call:?} {ours:?} altered a word: {}", difference(world, &before)));
    }
    if previews {
        let wanted = map_on_a_copy(&before, call);
        if ours != wanted {
            return Err(format!("{call:?}: {ours:?}, map on a copy {wanted:?}"));
        }
    }
    Ok(ours)
}

/// A call whose numbers mostly make sense in a space that is in use.
pub fn some_call(r: &mut Random, world: &World) -> Call {
    let space = if r.one_in(40) { r.word() } else { r.below(4) as u32 };
    let reach = if r.one_in(3) { 1024 } else { 48 };
    let first = if r.one_in(60) { r.word() } else { r.below(reach) as u32 };
    let count = match r.below(30) {
        0 => r.word(),
        1 => 0,
        2 => 1 + r.below(1024) as u32,
        3..=8 => 8 + r.below(16) as u32,
        _ => 1 + r.below(9) as u32,
    };
    let rights = match r.below(40) {
        0 => 8 + r.below(3) as u32,
        1 => r.pick(&RESERVED),
        _ => r.pick(&[3, 3, 3, 1, 7, 5, 0, 4]),
    };
    let access = if r.one_in(30) { r.below(9) as u32 } else { r.pick(&[1, 1, 1, 2, 4]) };
    let (kind, arguments) = match r.below(41) {
        0..=2 => (OPEN, [space, 0, 0, 0]),
        3 => (CLOSE, [space, 0, 0, 0]),
        4..=8 => (MAP, [space, first, count, rights]),
        9..=11 => (MAP, [space, page_to_grow(r, world, space).unwrap_or(first), count, rights]),
        12..=16 => (UNMAP, [space, first, count, 0]),
        17..=19 => (PROTECT, [space, first, count, rights]),
        20 => (COVERAGE, [space, 0, 0, 0]),
        21 if r.one_in(8) => (SET_UP_UNIT, [0; 4]),
        22 if r.one_in(12) => (SET_UP_POOL, [if r.one_in(2) { 0 } else { 4097 + r.below(3) as u32 }, 0, 0, 0]),
        40 => (PREVIEW, [space, first, count, rights]),
        _ => (TRANSLATE, [space, mapped_page(r, world, space).unwrap_or(first), access, 0]),
    };
    Call { kind, arguments }
}

/// Mostly a page that is mapped.
fn mapped_page(r: &mut Random, world: &World, space: u32) -> Option<u32> {
    if r.one_in(6) || space > 3 || world.pages.len() != 4096 {
        return None;
    }
    let base = 1024 * space as usize;
    let from = r.below(1024) as usize;
    (0..1024).map(|i| (from + i) % 1024).find(|p| world.pages[base + p] >= 65536).map(|p| p as u32)
}

/// Where 10,000 × inside / mapped goes if it is an exact half, that is an odd number of halves: 1 modulo 4 goes down, 3 modulo 4
/// goes up.
fn half(inside: u32, mapped: u32) -> Option<&'static str> {
    let (halves, rest) = (20_000 * inside / mapped, 20_000 * inside % mapped);
    match halves % 4 {
        1 if rest == 0 => Some("half_down"),
        3 if rest == 0 => Some("half_up"),
        _ => None,
    }
}

/// Counts the cases of interest, of coverage, of wishes, of reserved rights and of previews. The world is that after the call.
fn note_cases(world: &World, call: Call, answer: Answer, seen: &mut Seen) {
    let space = call.arguments[0];
    match (call.kind, answer.number) {
        (COVERAGE, 0) => note_half(world, space, seen),
        (MAP, 0) => seen.note(first_wish(world, space, call.arguments[1])),
        (MAP, 17) => seen.note(format!("map_17_by_{}", call.arguments[3])),
        (PROTECT, 17) => seen.note(format!("protect_17_by_{}", call.arguments[3])),
        (PREVIEW, number) => {
            seen.note(format!("preview_{number}"));
            if number == 0 {
                note_accepted_preview(world, space, answer, seen);
            }
            if number == 17 {
                seen.note(format!("preview_17_by_{}", call.arguments[3]));
            }
        }
        _ => {}
    }
}

/// Counts what a map would make of the space's ranges and blocks. Only where two ranges become one do they get fewer.
fn note_accepted_preview(world: &World, space: u32, answer: Answer, seen: &mut Seen) {
    seen.note(match answer.second.cmp(&world.ranges_used(space)) {
        Ordering::Less => "preview_joins",
        Ordering::Equal => "preview_same_ranges",
        Ordering::Greater => "preview_adds",
    });
    if answer.first > 1 {
        seen.note("preview_several_blocks");
    }
}

/// Counts a coverage that is an exact half, by the page words alone.
fn note_half(world: &World, space: u32, seen: &mut Seen) {
    let pages = world.space_pages(space);
    let mapped = pages.iter().filter(|w| **w != 0).count() as u32;
    let inside = pages.iter().filter(|w| **w & 32768 != 0).count() as u32;
    if let Some(what) = half(inside, mapped) {
        seen.note(what);
    }
}

/// Calls that empty a space, bring its coverage to an exact half and ask for it: one span is mapped, and its end split by rights
/// into pieces too short for a range. In a pool that is too full or broken up another coverage comes out.
pub fn calls_to_half(r: &mut Random, world: &World) -> Vec<Call> {
    let space = 1 + r.below(3) as u32;
    let own = world.space_pages(space).iter().filter(|w| **w != 0).count();
    let free = world.frames.iter().filter(|w| **w == 8192 || (16384..=16394).contains(*w)).count();
    // multiples of 32 pages have halves, others have none
    let mapped = 32 * (1 + r.below(((own + free) as u64 / 32).clamp(1, 32))) as u32;
    let way = r.pick(&["half_down", "half_up"]);
    // 29 of 32 go down, 31 of 32 up, so at most 3 in 32 pages need lie outside: 96 of 1,024
    let fitting: Vec<u32> = (8..mapped)
        .filter(|inside| mapped - inside <= 96 && half(*inside, mapped) == Some(way))
        .collect();
    let inside = r.pick(&fitting);
    let first = r.below(u64::from(1025 - mapped)) as u32;
    let mut calls = vec![(CLOSE, [0; 3]), (OPEN, [0; 3]), (MAP, [first, mapped, 3])];
    let (mut left, mut rights) = (mapped - inside, 1);
    while left > 0 {
        let count = left.min(1 + r.below(7) as u32);
        left -= count;
        calls.push((PROTECT, [first + inside + left, count, rights]));
        // neighbours differ from one another and from the span
        rights = 8 - rights;
    }
    calls.push((COVERAGE, [0; 3]));
    of_space(space, &calls)
}

/// Calls of one space, by their kind and further arguments.
fn of_space(space: u32, calls: &[(u32, [u32; 3])]) -> Vec<Call> {
    let call = |&(kind, [a, b, c]): &(u32, [u32; 3])| Call {
        kind,
        arguments: [space, a, b, c],
    };
    calls.iter().map(call).collect()
}

/// Calls that empty a space, map a span, unmap its middle and map that again: where the pool gives the same frames back, two ranges
/// become one.
fn calls_to_join(r: &mut Random) -> Vec<Call> {
    let space = 1 + r.below(3) as u32;
    let middle = r.pick(&[1, 2, 4, 8]);
    // the lower part is a multiple of the middle, so that in a fresh pool the middle is one block
    let (below, above) = (8 + 8 * r.below(3) as u32, 8 + r.below(9) as u32);
    let count = below + middle + above;
    let first = r.below(u64::from(1025 - count)) as u32;
    let calls = [
        (CLOSE, [0; 3]),
        (OPEN, [0; 3]),
        (MAP, [first, count, 3]),
        (UNMAP, [first + below, middle, 0]),
        (MAP, [first + below, middle, 3]),
    ];
    of_space(space, &calls)
}

/// Makes a call both ways and counts its cases. A map is tried by a preview before.
pub fn step(second: &mut Second, world: &mut World, call: Call, seen: &mut Seen) -> Result<Answer, String> {
    if call.kind == MAP {
        step(second, world, Call { kind: PREVIEW, ..call }, seen)?;
    }
    let answer = both(second, world, call)?;
    note_cases(world, call, answer, seen);
    Ok(answer)
}

/// The calls put in before a turn: one in four lists makes one range of two, from a fresh pool first, and another brings coverage to
/// exact halves.
fn directed_calls(r: &mut Random, world: &World, seed: u64, turn: u32) -> Vec<Call> {
    match seed % 4 {
        1 if turn % 80 == 0 => calls_to_join(r),
        2 if turn % 40 == 30 => calls_to_half(r, world),
        _ => Vec::new(),
    }
}

/// A list from set up pool on, with two units.
fn list(second: &mut Second, seed: u64, seen: &mut Seen) -> Result<(), String> {
    let mut r = Random::new(seed);
    let mut world = World::zeroed();
    for w in world.control.iter_mut().chain(&mut world.pages).chain(&mut world.unit) {
        *w = r.word();
    }
    let any = 1 + r.below(4096) as u32;
    let pool = r.pick(&[32, 64, 100, 700, 4096, any]);
    both(
        second,
        &mut world,
        Call {
            kind: SET_UP_POOL,
            arguments: [pool, 0, 0, 0],
        },
    )?;
    both(
        second,
        &mut world,
        Call {
            kind: SET_UP_UNIT,
            arguments: [0; 4],
        },
    )?;
    let mut other_unit = world.unit.clone();
    both(second, &mut world, Call { kind: OPEN, arguments: [0; 4] })?;
    // one in four lists lets a unit sleep through many removals
    let sleep = seed % 4 == 0;
    for turn in 0..160 {
        for call in directed_calls(&mut r, &world, seed, turn) {
            step(second, &mut world, call, seen).map_err(|e| format!("before call {turn}: {e}"))?;
        }
        let mut call = some_call(&mut r, &world);
        if sleep && turn % 40 == 20 {
            for _ in 0..r.pick(&[63, 64, 65]) {
                // a removal record: space 3 opened and closed
                both(
                    second,
                    &mut world,
                    Call {
                        kind: OPEN,
                        arguments: [3, 0, 0, 0],
                    },
                )?;
                both(
                    second,
                    &mut world,
                    Call {
                        kind: CLOSE,
                        arguments: [3, 0, 0, 0],
                    },
                )?;
            }
            call.kind = TRANSLATE;
            let page = mapped_page(&mut r, &world, 0).unwrap_or(0);
            call.arguments = [0, page, 1, 0];
        }
        if r.one_in(3) {
            std::mem::swap(&mut world.unit, &mut other_unit);
        }
        let behind = world.control[1].wrapping_sub(world.unit[SEEN]);
        let answer = step(second, &mut world, call, seen).map_err(|e| format!("call {turn}: {e}"))?;
        seen.note(format!("answer_{}", answer.number));
        if call.kind == TRANSLATE {
            if answer.number == 0 {
                seen.note(format!("way_{}", answer.second));
            }
            if (63..=65).contains(&behind) {
                seen.note(format!("behind_{behind}"));
            }
        }
    }
    Ok(())
}

pub fn compare(lists: u64, first: u64) -> bool {
    let mut second = Second::start();
    let mut seen = Seen::default();
    for seed in first..first + lists {
        if let Err(what) = list(&mut second, seed, &mut seen) {
            println!("list of seed {seed}: {what}\n  again: compare lists 1 {seed}");
            return false;
        }
    }
    println!("lists of calls: seeds {first} to {}, equal after every call", first + lists - 1);
    let must = [
        "answer_0",
        "answer_4",
        "answer_5",
        "answer_6",
        "answer_7",
        "answer_8",
        "answer_9",
        "answer_10",
        "answer_11",
        "answer_12",
        "answer_13",
        "answer_14",
        "answer_17",
        "map_17_by_2",
        "map_17_by_6",
        "protect_17_by_2",
        "protect_17_by_6",
        "preview_17_by_2",
        "preview_17_by_6",
        "way_1",
        "way_2",
        "way_3",
        "behind_63",
        "behind_64",
        "behind_65",
        "half_down",
        "half_up",
        "preview_0",
        "preview_5",
        "preview_6",
        "preview_8",
        "preview_10",
        "preview_11",
        "preview_14",
        "preview_joins",
        "preview_adds",
        "preview_same_ranges",
        "preview_several_blocks",
    ];
    let must: Vec<String> = must.iter().chain(&wishes::CASES).map(|w| w.to_string()).collect();
    seen.report(if lists >= 100 { &must } else { &[] })
}
