//! Damaged and foreign inputs: the proved calls and the second program answer and leave the same.
use crate::kernel::*;
use crate::lists::{calls_to_half, some_call, step, Seen};
use crate::random::Random;
use crate::rights::{self, damage_rights, foreign_page_entry, foreign_range_entry};
use crate::runs::{damage_run, KINDS};
use crate::second::Second;
use crate::wishes;

/// A sound state to start from: a pool in use, with a unit that has translated.
pub fn state(r: &mut Random) -> World {
    let mut world = World::zeroed();
    let pool = r.pick(&[32, 100, 700, 4096]);
    world.call(Call {
        kind: SET_UP_POOL,
        arguments: [pool, 0, 0, 0],
    });
    world.call(Call {
        kind: SET_UP_UNIT,
        arguments: [0; 4],
    });
    world.call(Call { kind: OPEN, arguments: [0; 4] });
    world.call(Call {
        kind: OPEN,
        arguments: [2, 0, 0, 0],
    });
    for _ in 0..40 {
        let call = some_call(r, &world);
        // a preview would alter nothing, and here nothing looks at its answer
        if ![SET_UP_POOL, SET_UP_UNIT, PREVIEW].contains(&call.kind) {
            world.call(call);
        }
    }
    // in every second state a space is brought to an exact half, if the pool allows it
    if r.one_in(2) {
        for call in calls_to_half(r, &world) {
            world.call(call);
        }
    }
    world
}

const BUFFERS: [&str; 5] = ["control", "frames", "pages", "ranges", "unit"];

fn buffer_of<'a>(w: &'a mut World, which: usize) -> &'a mut Vec<u32> {
    match which {
        0 => &mut w.control,
        1 => &mut w.frames,
        2 => &mut w.pages,
        3 => &mut w.ranges,
        _ => &mut w.unit,
    }
}

/// One of the buffers, or the unit's words, is damaged: what was done, by name.
fn damage_words(r: &mut Random, w: &mut World) -> String {
    let which = r.below(5) as usize;
    let buffer = buffer_of(w, which);
    let n = buffer.len();
    if n == 0 {
        return format!("length_{}", BUFFERS[which]);
    }
    let near = r.below(n.min(64) as u64) as usize;
    let at = if r.one_in(2) { r.below(n as u64) as usize } else { near };
    // the second program's protocol has no unit of another length
    let what = match r.below(if which < 4 { 8 } else { 7 }) {
        0..=2 => {
            buffer[at] = r.word();
            "word"
        }
        3 | 4 => {
            buffer[at] = buffer[at].wrapping_add(r.pick(&[1, u32::MAX, 4096, 32768, 65536]));
            "little"
        }
        5 => {
            let other = r.below(n as u64) as usize;
            buffer.swap(at, other);
            "swap"
        }
        6 => {
            buffer.iter_mut().for_each(|x| *x = r.word());
            "scratch"
        }
        _ => {
            let to = r.pick(&[0, n - 1, n + 1, UNIT, CONTROL]);
            buffer.resize(if to == n { n + 1 } else { to }, 0);
            "length"
        }
    };
    format!("{what}_{}", BUFFERS[which])
}

/// A single field of the unit, or of the removal log, is set to something of interest.
fn damage_field(r: &mut Random, w: &mut World) -> String {
    if w.control.len() != CONTROL {
        return "length_control".to_string();
    }
    let what = match r.below(10) {
        0 | 1 => {
            w.control[1] = u32::MAX - r.below(3) as u32;
            for j in 0..64 {
                if w.control[RECORDS + 3 * j + 2] == 0 {
                    w.control[RECORDS + 3 * j + 2] = 1;
                }
            }
            if r.one_in(2) {
                w.unit[SEEN] = w.control[1].wrapping_sub(r.below(70) as u32);
            }
            "records_near_the_last"
        }
        2 => {
            w.unit[SEEN] = w.control[1].wrapping_add(1 + r.below(3) as u32);
            "seen_above"
        }
        3 => {
            w.unit[LAST] = r.below(34) as u32;
            "last_used"
        }
        4 => {
            w.unit[NEXT] = r.below(34) as u32;
            "next_place"
        }
        5 | 6 => {
            let rights = r.pick(&rights::ALLOWED);
            foreign_page_entry(r, w, rights);
            "foreign_page_entry"
        }
        7 => {
            // one field of a page entry
            let e = 5 * r.below(64) as usize + r.below(5) as usize;
            w.unit[e] = r.below(4200) as u32;
            "page_entry_field"
        }
        8 => {
            // one field of a range entry
            let e = 320 + r.below(192) as usize;
            w.unit[e] = r.below(1100) as u32;
            "range_entry_field"
        }
        _ => {
            // it may lack rights
            let rights = r.pick(&rights::ALLOWED);
            foreign_range_entry(r, w, rights);
            "foreign_range_entry"
        }
    };
    what.to_string()
}

fn damage(r: &mut Random, w: &mut World) -> String {
    match r.below(6) {
        0 | 1 => damage_words(r, w),
        2 | 3 => damage_field(r, w),
        4 => damage_run(r, w).unwrap_or_else(|| damage_words(r, w)),
        _ => damage_rights(r, w).unwrap_or_else(|| damage_words(r, w)),
    }
}

/// Whether a call has to answer 2 after this damage alone, whatever the second program says: each call but the set-ups where the
/// tables are unsound, a translation where the unit is malformed.
fn must_answer_two(what: &str, kind: u32) -> bool {
    if KINDS.contains(&what) || rights::is_one(what, &rights::IN_TABLES) {
        return ![SET_UP_POOL, SET_UP_UNIT].contains(&kind);
    }
    rights::is_one(what, &rights::IN_UNIT) && kind == TRANSLATE
}

/// A unit, or a place for the values, of another length: 1, and neither buffer nor unit is altered. A place of two
/// words gets zeros, another stays as it was.
fn odd_lengths() -> bool {
    let start = state(&mut Random::new(1));
    let mut fine = true;
    for kind in SET_UP_POOL..=PREVIEW {
        let call = Call {
            kind,
            arguments: [if kind == SET_UP_POOL { 32 } else { 0 }, 0, 1, 1],
        };
        for (unit, place) in [(515, 0), (515, 1), (515, 3), (0, 2), (514, 2), (516, 2)] {
            let takes_unit = kind == TRANSLATE || kind == SET_UP_UNIT;
            if unit != UNIT && !takes_unit {
                continue;
            }
            let mut world = start.clone();
            world.unit.resize(unit, 7);
            let before = world.clone();
            let mut values = vec![9; place];
            let number = world.call_into(call, &mut values);
            let left = if place == 2 { 0 } else { 9 };
            if number != 1 || world != before || values.iter().any(|v| *v != left) {
                println!("{call:?} with a unit of {unit} words and a place of {place}: number {number}");
                fine = false;
            }
        }
    }
    fine
}

pub fn compare(inputs: u64, first: u64) -> bool {
    if !odd_lengths() {
        return false;
    }
    let mut second = Second::start();
    let mut seen = Seen::default();
    // fifty inputs share a state, which their seeds determine
    let shared = |seed: u64| state(&mut Random::new((seed / 50).wrapping_add(1 << 40)));
    let mut start = shared(first);
    for seed in first..first + inputs {
        let mut r = Random::new(seed.wrapping_add(1 << 41));
        if seed % 50 == 0 {
            start = shared(seed);
        }
        let mut world = start.clone();
        let mut what = damage(&mut r, &mut world);
        let twice = r.one_in(4);
        if twice {
            what = damage(&mut r, &mut world);
        }
        let mut call = some_call(&mut r, &world);
        if r.one_in(3) {
            call = Call {
                kind: TRANSLATE,
                arguments: [r.below(3) as u32, r.below(1024) as u32, 1, 0],
            };
            // ask for a page that an entry of the unit covers
            let k = r.below(32) as usize;
            if world.unit.len() == UNIT && world.unit[320 + 6 * k] == 1 {
                call.arguments = [world.unit[321 + 6 * k], world.unit[322 + 6 * k], r.pick(&[1, 2, 4]), 0];
                if r.one_in(3) {
                    call.arguments[1] = world.unit[323 + 6 * k];
                }
            }
        }
        // a second damage may mend the first, or change a length
        let two = !twice && must_answer_two(&what, call.kind);
        match step(&mut second, &mut world, call, &mut seen) {
            Ok(answer) if two && answer.number != 2 => {
                println!(
                    "input of seed {seed} ({what}): both answer {}, not 2\n  again: compare damaged 1 {seed}",
                    answer.number
                );
                return false;
            }
            Ok(answer) => {
                if two {
                    seen.note(format!("{what}_found"));
                }
                seen.note(what);
                seen.note(format!("answer_{}", answer.number));
                if call.kind == TRANSLATE && answer.number == 0 {
                    seen.note(format!("way_{}", answer.second));
                }
            }
            Err(differs) => {
                println!("input of seed {seed} ({what}): {differs}\n  again: compare damaged 1 {seed}");
                return false;
            }
        }
    }
    println!("damaged and foreign inputs: seeds {first} to {}, equal", first + inputs - 1);
    let must = if inputs >= 10_000 { must_be_reached() } else { Vec::new() };
    seen.report(&must)
}

/// What many damaged inputs must have reached.
fn must_be_reached() -> Vec<String> {
    let mut must: Vec<String> = Vec::new();
    for what in ["word", "little", "swap", "scratch", "length"] {
        must.extend(BUFFERS.iter().map(|b| format!("{what}_{b}")).filter(|name| name != "length_unit"));
    }
    must.extend(
        [
            "records_near_the_last",
            "seen_above",
            "last_used",
            "next_place",
            "page_entry_field",
            "range_entry_field",
        ]
        .map(String::from),
    );
    must.extend(["foreign_page_entry", "foreign_range_entry"].map(String::from));
    must.extend(KINDS.map(|kind| format!("{kind}_found")));
    for kind in rights::IN_TABLES.iter().chain(&rights::IN_UNIT) {
        must.extend(rights::RESERVED.map(|rights| format!("{}_found", rights::named(kind, rights))));
    }
    must.extend([0, 1, 2, 3, 12, 13, 15, 17].map(|n| format!("answer_{n}")));
    must.extend([1, 2, 3].map(|n| format!("way_{n}")));
    must.extend(["half_down", "half_up"].map(String::from));
    must.extend([0, 1, 2, 5, 6, 17, 8, 10, 11, 14].map(|n| format!("preview_{n}")));
    must.extend(["preview_adds", "preview_same_ranges", "preview_several_blocks"].map(String::from));
    must.extend(wishes::CASES.map(String::from));
    must
}
