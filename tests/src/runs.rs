//! Tables that are right but for one run, whose range entry and range bits say something other than its pages. Each is unsound.
use crate::kernel::*;
use crate::random::Random;
use crate::rights::{give, ALLOWED};

const RANGE_BIT: u32 = 32_768;

pub const KINDS: [&str; 6] = [
    "run_over_other_rights",
    "run_over_unmapped_page",
    "run_one_page_short",
    "run_one_page_late",
    "run_of_seven_listed",
    "run_not_listed",
];

/// A range of the tables: its space, where its entry begins in the range buffer, BASE and LIMIT.
struct Range {
    space: usize,
    entry: usize,
    base: usize,
    limit: usize,
}

fn some_range(r: &mut Random, w: &World) -> Option<Range> {
    if [&w.control, &w.frames, &w.pages, &w.ranges].map(|b| b.len()) != [CONTROL, 4096, 4096, 2048] {
        return None;
    }
    // damage done before may have left anything there
    let lawful = |e: usize| w.ranges[e + 1] <= 1024 && w.ranges[e] as u64 + 8 <= w.ranges[e + 1] as u64;
    let listed: Vec<usize> = (0..2048).step_by(4).filter(|e| lawful(*e)).collect();
    if listed.is_empty() {
        return None;
    }
    let entry = r.pick(&listed);
    Some(Range {
        space: entry / 512,
        entry,
        base: w.ranges[entry] as usize,
        limit: w.ranges[entry + 1] as usize,
    })
}

fn set_bits(w: &mut World, space: usize, pages: std::ops::Range<usize>, on: bool) {
    for word in &mut w.pages[1024 * space..][pages] {
        if *word >> 16 == 1 {
            *word = if on { *word | RANGE_BIT } else { *word & !RANGE_BIT };
        }
    }
}

/// Unmaps pages by the call and puts the space's range words back; false where the call is refused.
fn unmap_unlisted(w: &mut World, space: usize, first: usize, count: usize) -> bool {
    let part = 512 * space..512 * (space + 1);
    let before = w.ranges[part.clone()].to_vec();
    let answer = w.call(Call {
        kind: UNMAP,
        arguments: [space as u32, first as u32, count as u32, 0],
    });
    w.ranges[part].copy_from_slice(&before);
    answer.number == 0
}

/// Gives a page other rights that are allowed, by its word alone.
fn change_rights(r: &mut Random, word: &mut u32) {
    let rights = *word / RIGHTS % 8;
    let others: Vec<u32> = ALLOWED.into_iter().filter(|other| *other != rights).collect();
    give(word, r.pick(&others));
}

/// Damages one range and says which of `KINDS` was done, or nothing where no range can be damaged.
pub fn damage_run(r: &mut Random, w: &mut World) -> Option<String> {
    let Range { space, entry, base, limit } = some_range(r, w)?;
    let kind = r.below(KINDS.len() as u64) as usize;
    match KINDS[kind] {
        "run_over_other_rights" => {
            let page = base + r.below((limit - base) as u64) as usize;
            change_rights(r, &mut w.pages[1024 * space + page]);
        }
        "run_over_unmapped_page" => {
            let page = base + 1 + r.below((limit - base - 2) as u64) as usize;
            if !unmap_unlisted(w, space, page, 1) {
                return None;
            }
            set_bits(w, space, base..limit, true);
        }
        "run_one_page_short" => {
            w.ranges[entry + 1] -= 1;
            set_bits(w, space, limit - 1..limit, false);
        }
        "run_one_page_late" => {
            w.ranges[entry] += 1;
            set_bits(w, space, base..base + 1, false);
        }
        "run_of_seven_listed" => {
            if !unmap_unlisted(w, space, base + 7, limit - base - 7) {
                return None;
            }
            w.ranges[entry + 1] = base as u32 + 7;
            set_bits(w, space, base..base + 7, true);
        }
        "run_not_listed" => {
            let end = 512 * (space + 1);
            w.ranges.copy_within(entry + 4..end, entry);
            w.ranges[end - 4..end].fill(0);
            set_bits(w, space, base..limit, false);
        }
        other => unreachable!("{other}"),
    }
    Some(KINDS[kind].to_string())
}
