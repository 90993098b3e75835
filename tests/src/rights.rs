//! Tables and units that are right but for reserved rights, 2 or 6: tables with them are unsound, units malformed.
use crate::kernel::*;
use crate::random::Random;

pub const ALLOWED: [u32; 6] = [0, 1, 3, 4, 5, 7];
pub const RESERVED: [u32; 2] = [2, 6];

/// In the tables: the words of a run too short for a range; the words and the entry of a range; one word of a range; the entry
/// alone. In the unit: a page entry, a range entry.
pub const IN_TABLES: [&str; 4] = ["reserved_page_words", "reserved_range", "reserved_page_of_range", "reserved_entry_of_table"];
pub const IN_UNIT: [&str; 2] = ["reserved_page_entry", "reserved_range_entry"];

/// The damage of a kind with these rights, by name.
pub fn named(kind: &str, rights: u32) -> String {
    format!("{kind}_{rights}")
}

/// Whether a damage is one of these kinds, whichever the rights.
pub fn is_one(what: &str, kinds: &[&str]) -> bool {
    kinds.iter().any(|kind| RESERVED.iter().any(|rights| named(kind, *rights) == what))
}

fn is_mapped(word: u32) -> bool {
    word >> 16 == 1
}

/// Whether a page goes on with the run of the page before it: mapped, the next frame, the same rights.
fn joins(before: u32, word: u32) -> bool {
    is_mapped(before) && is_mapped(word) && word % RIGHTS == before % RIGHTS + 1 && word / RIGHTS % 8 == before / RIGHTS % 8
}

/// The longest run of a space that holds a mapped page.
fn run_of(pages: &[u32], page: usize) -> std::ops::Range<usize> {
    let mut base = page;
    while base > 0 && joins(pages[base - 1], pages[base]) {
        base -= 1;
    }
    let mut limit = page + 1;
    while limit < pages.len() && joins(pages[limit - 1], pages[limit]) {
        limit += 1;
    }
    base..limit
}

/// Gives a mapped page's word other rights.
pub fn give(word: &mut u32, rights: u32) {
    *word = *word - RIGHTS * (*word / RIGHTS % 8) + RIGHTS * rights;
}

/// Gives a run the rights, and its range entry too where it has one: nothing else of the tables is wrong then, for no neighbour
/// has such rights. Or one word of a range alone.
fn damage_pages(r: &mut Random, w: &mut World, rights: u32) -> Option<&'static str> {
    let mapped: Vec<usize> = (0..4096).filter(|i| is_mapped(w.pages[*i])).collect();
    if mapped.is_empty() {
        return None;
    }
    let at = r.pick(&mapped);
    let (space, page) = (at / 1024, at % 1024);
    let pages = &mut w.pages[1024 * space..][..1024];
    let run = run_of(pages, page);
    if run.len() >= 8 && r.one_in(3) {
        give(&mut pages[page], rights);
        return Some(IN_TABLES[2]);
    }
    for word in &mut pages[run.clone()] {
        give(word, rights);
    }
    if run.len() < 8 {
        return Some(IN_TABLES[0]);
    }
    let mut entries = w.ranges[512 * space..][..512].chunks_mut(4);
    let entry = entries.find(|e| e[0] as usize == run.start && e[1] as usize == run.end)?;
    entry[3] = rights;
    Some(IN_TABLES[1])
}

fn damage_entry_of_table(r: &mut Random, w: &mut World, rights: u32) -> Option<&'static str> {
    let used: Vec<usize> = (0..2048).step_by(4).filter(|e| w.ranges[e + 1] != 0).collect();
    if used.is_empty() {
        return None;
    }
    w.ranges[r.pick(&used) + 3] = rights;
    Some(IN_TABLES[3])
}

/// A page entry at its place, well formed if its rights are allowed; no list of calls made it.
pub fn foreign_page_entry(r: &mut Random, w: &mut World, rights: u32) {
    let page = r.below(1024) as u32;
    let e = 5 * (page % 64) as usize;
    w.unit[e..e + 5].copy_from_slice(&[1, r.below(4) as u32, page, r.below(4096) as u32, rights]);
}

/// A range entry, well formed if its rights are allowed; it may overlap others.
pub fn foreign_range_entry(r: &mut Random, w: &mut World, rights: u32) {
    let e = 320 + 6 * r.below(32) as usize;
    let base = r.below(1000) as u32;
    let limit = base + 1 + r.below(24) as u32;
    let frame = r.below(4000) as u32;
    w.unit[e..e + 6].copy_from_slice(&[1, r.below(3) as u32, base, limit, frame.wrapping_sub(base), rights]);
    if r.one_in(2) {
        w.unit[LAST] = ((e - 320) / 6) as u32;
    }
}

/// Puts reserved rights somewhere and says what was done, or nothing where there is no place for them.
pub fn damage_rights(r: &mut Random, w: &mut World) -> Option<String> {
    if [&w.control, &w.frames, &w.pages, &w.ranges].map(|b| b.len()) != [CONTROL, 4096, 4096, 2048] {
        return None;
    }
    let rights = r.pick(&RESERVED);
    let kind = match r.below(5) {
        0 | 1 => damage_pages(r, w, rights)?,
        2 => damage_entry_of_table(r, w, rights)?,
        3 => {
            foreign_page_entry(r, w, rights);
            IN_UNIT[0]
        }
        _ => {
            foreign_range_entry(r, w, rights);
            IN_UNIT[1]
        }
    };
    Some(named(kind, rights))
}
