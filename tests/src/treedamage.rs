//! Trees that are lawful but for one thing, of every kind. Each is answered with 2 by every call.
use crate::random::Random;
use crate::rights::RESERVED;
use crate::treeform::*;

pub const KINDS: [&str; 26] = [
    "cycle",
    "reached_twice",
    "child_above_63",
    "child_in_leaf",
    "count_0",
    "root_without_ranges",
    "count_above_4",
    "one_range_below_the_root",
    "five_levels",
    "leaves_at_two_depths",
    "unreached_word",
    "unreached_node",
    "unused_range_word",
    "unused_child",
    "last_word",
    "leaf_word_above_1",
    "leaf_word_other",
    "root_above_64",
    "root_64_with_words",
    "other_root",
    "unsorted",
    "overlapping",
    "bad_rights",
    "short",
    "past_the_space",
    "frame_above",
];

/// Not 0, often small.
fn some_word(r: &mut Random) -> u32 {
    match r.below(3) {
        0 => 1,
        1 => 1 + r.below(64) as u32,
        _ => r.word().max(1),
    }
}

/// A node of a lawful tree that passes the test.
fn some_node(r: &mut Random, words: &[u32], test: impl Fn(u32, &Place) -> bool) -> Option<u32> {
    let (places, _) = places(words);
    let passing: Vec<u32> = places.iter().filter(|(n, p)| test(**n, p)).map(|(n, _)| *n).collect();
    (!passing.is_empty()).then(|| r.pick(&passing))
}

fn zero_below(words: &mut [u32], number: u32) {
    let inner = node(words, number)[LEAF] == 0;
    let children = node(words, number)[CHILDREN..][..=node(words, number)[COUNT] as usize].to_vec();
    words[start_of(number)..][..NODE].fill(0);
    for child in children.into_iter().filter(|_| inner) {
        zero_below(words, child);
    }
}

/// Another number in the place of a child, whose nodes become zero. The new one is chosen for the node above it and the old one.
fn other_child(r: &mut Random, words: &mut [u32], choose: impl Fn(&mut Random, &[u32], u32, u32) -> Option<u32>) -> Option<()> {
    let above = some_node(r, words, |_, p| !p.is_leaf())?;
    let at = start_of(above) + CHILDREN + r.below(u64::from(node(words, above)[COUNT]) + 1) as usize;
    let new = choose(r, words, above, words[at])?;
    let old = words[at];
    zero_below(words, old);
    words[at] = new;
    Some(())
}

/// The node itself or one above it.
fn ancestor(r: &mut Random, words: &[u32], number: u32) -> u32 {
    let (places, _) = places(words);
    let mut all = vec![number];
    while let Some(above) = places[all.last().unwrap()].above {
        all.push(above);
    }
    r.pick(&all)
}

/// Another node of the old child's level.
fn beside(r: &mut Random, words: &[u32], old: u32) -> Option<u32> {
    let level = places(words).0[&old].level;
    some_node(r, words, |number, p| p.level == level && number != old)
}

fn put(words: &mut [u32], number: u32, place: usize, word: u32) {
    words[start_of(number) + place] = word;
}

/// Where the words of a range begin, which is the one with this number of the tree's ranges in order.
fn place_of(words: &[u32], which: usize) -> usize {
    let range = listed(words)[which];
    let (places, _) = places(words);
    let in_node = |(number, place): (&u32, &Place)| {
        let at = place.ranges.iter().position(|other| *other == range)?;
        Some(range_at(*number, at))
    };
    places.iter().find_map(in_node).unwrap()
}

fn alter_range(words: &mut [u32], which: usize, alter: impl FnOnce(&mut [u32])) {
    let at = place_of(words, which);
    alter(&mut words[at..at + 4]);
}

fn some_place(r: &mut Random, words: &[u32]) -> usize {
    r.below(listed(words).len() as u64) as usize
}

/// A node without ranges as the root: a leaf, one above a lawful tree, or one of zeros.
fn bare_root(r: &mut Random, words: &mut [u32]) -> Option<()> {
    let free = (0..NODES).find(|n| node(words, *n).iter().all(|w| *w == 0))?;
    match r.below(3) {
        0 => put(words, free, CHILDREN, words[0]),
        1 => {
            words.fill(0);
            put(words, free, LEAF, 1);
        }
        _ => words.fill(0),
    }
    words[0] = free;
    Some(())
}

/// Alters some node so many steps below the root.
fn alter_below(r: &mut Random, form: &mut Form, steps: u64, alter: impl FnOnce(&mut Form)) {
    let mut node = form;
    for _ in 0..steps {
        let child = r.below(node.children.len() as u64) as usize;
        node = &mut node.children[child];
    }
    alter(node);
}

fn swap_two_ranges(r: &mut Random, words: &mut [u32]) -> Option<()> {
    let n = listed(words).len();
    let (i, j) = (r.below(n as u64) as usize, r.below(n as u64) as usize);
    if i == j {
        return None;
    }
    let (at, to) = (place_of(words, i), place_of(words, j));
    for k in 0..4 {
        words.swap(at + k, to + k);
    }
    Some(())
}

/// A range reaches into the next one, over its first page or more.
fn overlap(r: &mut Random, words: &mut [u32]) -> Option<()> {
    let ranges = listed(words);
    if ranges.len() < 2 {
        return None;
    }
    let which = r.below(ranges.len() as u64 - 1) as usize;
    let next = ranges[which + 1];
    let more = r.below(u64::from(next[1] - next[0])) as u32;
    let limit = next[0] + 1 + r.pick(&[0, more]);
    let range = some_range(r, ranges[which][0], limit);
    alter_range(words, which, |w| w.copy_from_slice(&range));
    Some(())
}

fn short_range(r: &mut Random, words: &mut [u32]) {
    let which = some_place(r, words);
    let base = listed(words)[which][0];
    let limit = match r.below(4) {
        0 => r.below(u64::from(base) + 1) as u32,
        1 => base + 7,
        _ => base + r.below(8) as u32,
    };
    alter_range(words, which, |w| w[1] = limit);
}

/// The last range ends behind page 1,023, with frames that are allowed.
fn past_the_space(r: &mut Random, words: &mut [u32]) {
    let last = listed(words).len() - 1;
    let base = listed(words)[last][0];
    let limit = match r.below(3) {
        0 => 1025,
        1 => 1025 + r.below(2000) as u32,
        _ => base.max(1017) + 8 + r.below(8) as u32,
    };
    let base = if r.one_in(2) { base } else { limit - 8 };
    alter_range(words, last, |w| w[..3].copy_from_slice(&[base, limit, 0u32.wrapping_sub(base)]));
}

/// One frame too high at the last page, or one too low at the first, or anything.
fn frame_above(r: &mut Random, words: &mut [u32]) {
    let which = some_place(r, words);
    let [base, limit, ..] = listed(words)[which];
    let first = match r.below(4) {
        0 => 4097 - (limit - base),
        1 => u32::MAX,
        2 => 0u32.wrapping_sub(1 + r.below(u64::from(limit - base) + 8) as u32),
        _ => 4096 + r.below(u64::from(u32::MAX) - 4095) as u32,
    };
    alter_range(words, which, |w| w[2] = first.wrapping_sub(base));
}

/// A tree damaged in this way, or nothing where the tree drawn has no place for it.
fn try_damaged(r: &mut Random, kind: &str) -> Option<Vec<u32>> {
    let levels = 1 + r.below(4) as u32;
    let mut words = foreign(r, levels);
    match kind {
        "cycle" => other_child(r, &mut words, |r, words, above, _| Some(ancestor(r, words, above)))?,
        "reached_twice" => other_child(r, &mut words, |r, words, _, old| beside(r, words, old))?,
        "child_above_63" => {
            let any = 64 + r.below(1 << 31) as u32;
            let number = r.pick(&[64, 65, u32::MAX, any]);
            other_child(r, &mut words, |_, _, _, _| Some(number))?
        }
        "child_in_leaf" => {
            let leaf = some_node(r, &words, |_, p| p.is_leaf())?;
            let (place, word) = (CHILDREN + r.below(5) as usize, some_word(r));
            put(&mut words, leaf, place, word);
        }
        "count_0" | "count_above_4" | "leaf_word_above_1" | "last_word" => {
            let number = some_node(r, &words, |_, _| true)?;
            let (place, word) = match kind {
                "count_0" => (COUNT, 0),
                "count_above_4" => (COUNT, some_word(r).saturating_add(4)),
                "last_word" => (LAST, some_word(r)),
                _ => (LEAF, some_word(r).saturating_add(1)),
            };
            put(&mut words, number, place, word);
        }
        "root_without_ranges" => bare_root(r, &mut words)?,
        "one_range_below_the_root" => {
            let mut form = lawful_form(r, levels.max(2));
            let steps = 1 + r.below(u64::from(levels.max(2)) - 1);
            alter_below(r, &mut form, steps, |node| {
                node.ranges.truncate(1);
                node.children.truncate(2);
            });
            words = form.laid_out(r);
        }
        "five_levels" => words = thin_form(r, 5).laid_out(r),
        "leaves_at_two_depths" => {
            let mut form = lawful_form(r, levels.max(3));
            let steps = 1 + r.below(u64::from(levels.max(3)) - 2);
            alter_below(r, &mut form, steps, |node| node.children.clear());
            words = form.laid_out(r);
        }
        "unreached_word" | "unreached_node" => {
            if r.one_in(8) {
                words = empty();
                words[0] = r.below(64) as u32;
                let at = start_of(words[0]);
                words[at..at + 6].copy_from_slice(&[1, 1, 0, 8, 0, 3]);
            }
            let (used, _) = places(&words);
            let free: Vec<u32> = (0..NODES).filter(|n| !used.contains_key(n)).collect();
            let number = r.pick(&free);
            if kind == "unreached_word" {
                let (place, word) = (r.below(NODE as u64) as usize, some_word(r));
                put(&mut words, number, place, word);
            } else {
                let at = start_of(number);
                words[at..at + 6].copy_from_slice(&[1, 1, 1016, 1024, 0, 3]);
            }
        }
        "unused_range_word" => {
            let number = some_node(r, &words, |_, p| p.ranges.len() < 4)?;
            let from = RANGES + 4 * node(&words, number)[COUNT] as usize;
            let (place, word) = (from + r.below((CHILDREN - from) as u64) as usize, some_word(r));
            put(&mut words, number, place, word);
        }
        "unused_child" => {
            let number = some_node(r, &words, |_, p| p.ranges.len() < 4 && !p.is_leaf())?;
            let from = CHILDREN + 1 + node(&words, number)[COUNT] as usize;
            let (place, word) = (from + r.below((LAST - from) as u64) as usize, some_word(r));
            put(&mut words, number, place, word);
        }
        "leaf_word_other" => {
            let number = some_node(r, &words, |_, _| true)?;
            let other = 1 - node(&words, number)[LEAF];
            put(&mut words, number, LEAF, other);
        }
        "root_above_64" => {
            if r.one_in(3) {
                words = empty();
            }
            words[0] = 64 + some_word(r).min(u32::MAX - 64);
        }
        "root_64_with_words" => {
            if r.one_in(3) {
                words = empty();
                words[1 + r.below(1536) as usize] = some_word(r);
            }
            words[0] = EMPTY;
        }
        "other_root" => {
            let root = words[0];
            words[0] = (root + 1 + r.below(63) as u32) % 64;
        }
        "unsorted" => swap_two_ranges(r, &mut words)?,
        "overlapping" => overlap(r, &mut words)?,
        "bad_rights" => {
            let which = some_place(r, &words);
            let rights = r.pick(&[RESERVED[0], RESERVED[1], 8, 9, 16, u32::MAX]);
            alter_range(&mut words, which, |w| w[3] = rights);
        }
        "short" => short_range(r, &mut words),
        "past_the_space" => past_the_space(r, &mut words),
        "frame_above" => frame_above(r, &mut words),
        other => unreachable!("{other}"),
    }
    Some(words)
}

/// A tree damaged in this way.
pub fn damaged(r: &mut Random, kind: &str) -> Vec<u32> {
    loop {
        if let Some(words) = try_damaged(r, kind) {
            return words;
        }
    }
}
