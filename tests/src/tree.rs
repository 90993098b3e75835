//! Trees of ranges: the proved calls against the second program's, word for word, and against a plain list of ranges.
use crate::kernel::{Answer, Call, World, MAP, OPEN, PROTECT, RIGHTS, SET_UP_POOL, UNMAP, VALUES};
use crate::lists::Seen;
use crate::random::Random;
use crate::rights::{ALLOWED, RESERVED};
use crate::second::{root, Trees};
use crate::states;
use crate::treedamage::{damaged, KINDS};
use crate::treeform::*;
use std::collections::BTreeSet;

extern "C" {
    fn yavrestom_tree_insert(tree: *mut u32, tn: usize, base: u32, limit: u32, offset: u32, rights: u32, values: *mut u32, vn: usize) -> u32;
    fn yavrestom_tree_remove(tree: *mut u32, tn: usize, base: u32, values: *mut u32, vn: usize) -> u32;
    fn yavrestom_tree_lookup(tree: *const u32, tn: usize, page: u32, values: *mut u32, vn: usize) -> u32;
}

/// The calls by their numbers in the second program's protocol.
pub const INSERT: u32 = 1;
pub const REMOVE: u32 = 2;
pub const LOOKUP: u32 = 3;
const NAMES: [&str; 3] = ["insert", "remove", "lookup"];

fn name(call: Call) -> &'static str {
    NAMES[call.kind as usize - 1]
}

pub fn insert(range: Range) -> Call {
    Call {
        kind: INSERT,
        arguments: range,
    }
}

pub fn remove(base: u32) -> Call {
    Call {
        kind: REMOVE,
        arguments: [base, 0, 0, 0],
    }
}

pub fn lookup(page: u32) -> Call {
    Call {
        kind: LOOKUP,
        arguments: [page, 0, 0, 0],
    }
}

/// The proved call's number, with a place of any length for the values.
fn into(tree: &mut [u32], call: Call, values: &mut [u32]) -> u32 {
    let (t, tn) = (tree.as_mut_ptr(), tree.len());
    let (v, vn) = (values.as_mut_ptr(), values.len());
    let [a, b, c, d] = call.arguments;
    // the pointers are of two slices of these lengths
    unsafe {
        match call.kind {
            INSERT => yavrestom_tree_insert(t, tn, a, b, c, d, v, vn),
            REMOVE => yavrestom_tree_remove(t, tn, a, v, vn),
            LOOKUP => yavrestom_tree_lookup(t, tn, a, v, vn),
            other => panic!("no call {other}"),
        }
    }
}

pub fn proved(tree: &mut [u32], call: Call) -> Answer {
    let mut values = VALUES;
    let number = into(tree, call, &mut values);
    Answer {
        number,
        first: values[0],
        second: values[1],
    }
}

/// The first word that differs, in words.
fn difference(ours: &[u32], theirs: &[u32]) -> String {
    if ours.len() != theirs.len() {
        return format!("lengths {} and {}", ours.len(), theirs.len());
    }
    match (0..ours.len()).find(|&i| ours[i] != theirs[i]) {
        None => "nothing".to_string(),
        Some(0) => format!("the root's number: {} and {}", ours[0], theirs[0]),
        Some(i) => format!("word {} of node {}: {} and {}", (i - 1) % NODE, (i - 1) / NODE, ours[i], theirs[i]),
    }
}

/// Makes one call both ways; the answer, or what differs. A refusal has zeros and alters no word, nor does a lookup; insertion and
/// removal have no values.
fn both(second: &mut Trees, tree: &mut Vec<u32>, call: Call, seen: &mut Seen) -> Result<Answer, String> {
    let before = tree.clone();
    let mut other = tree.clone();
    let theirs = second.call(&mut other, call);
    let ours = proved(tree, call);
    let what = format!("{} {:?}", name(call), call.arguments);
    if ours != theirs {
        return Err(format!("{what}: proved {ours:?}, second program {theirs:?}"));
    }
    if *tree != other {
        return Err(format!("{what}: proved, then second program: {}", difference(tree, &other)));
    }
    let refused = ours.number != 0;
    if (refused || call.kind == LOOKUP) && *tree != before {
        return Err(format!("{what} {ours:?} altered a word: {}", difference(tree, &before)));
    }
    if (refused || call.kind != LOOKUP) && (ours.first, ours.second) != (0, 0) {
        return Err(format!("{what}: {ours:?} has values"));
    }
    seen.note(format!("{}_{}", name(call), ours.number));
    Ok(ours)
}

// The plain list.

fn holder(held: &[Range], page: u32) -> Option<&Range> {
    held.iter().find(|[base, limit, ..]| *base <= page && page < *limit)
}

fn frame(range: &Range, page: u32) -> u64 {
    (u64::from(page) + u64::from(range[2])) % (1 << 32)
}

/// What a lawful tree of these ranges has to answer: the number and, of a lookup, the first value.
fn demanded(held: &[Range], call: Call) -> (u32, u32) {
    let [first, limit, _, rights] = call.arguments;
    match call.kind {
        INSERT => {
            let new = call.arguments;
            let fits = u64::from(first) + 8 <= u64::from(limit) && limit <= 1024;
            let number = if rights > 7 {
                6
            } else if RESERVED.contains(&rights) {
                17
            } else if !fits || (first..limit).any(|page| frame(&new, page) > 4095) {
                8
            } else if (first..limit).any(|page| holder(held, page).is_some()) {
                11
            } else {
                0
            };
            (number, 0)
        }
        _ if first > 1023 => (8, 0),
        REMOVE => (if held.iter().any(|range| range[0] == first) { 0 } else { 12 }, 0),
        _ => match holder(held, first) {
            Some(range) => (0, RIGHTS * range[3] + frame(range, first) as u32),
            None => (12, 0),
        },
    }
}

/// The tree lent, and the list of its ranges.
struct Pair {
    tree: Vec<u32>,
    held: Vec<Range>,
    /// Nodes that a removal freed.
    freed: BTreeSet<u32>,
}

impl Pair {
    fn new(tree: Vec<u32>) -> Pair {
        let held = listed(&tree);
        Pair {
            tree,
            held,
            freed: BTreeSet::new(),
        }
    }

    /// One call by the proved manager, the second program and the list.
    fn step(&mut self, second: &mut Trees, call: Call, seen: &mut Seen) -> Result<Answer, String> {
        let before = self.tree.clone();
        let answer = both(second, &mut self.tree, call, seen)?;
        let wanted = demanded(&self.held, call);
        if (answer.number, answer.first) != wanted {
            return Err(format!("{} {:?}: {answer:?}, a list of the ranges {wanted:?}", name(call), call.arguments));
        }
        match call.kind {
            INSERT if answer.number == 0 => {
                self.held.push(call.arguments);
                self.note_insertion(&before, seen);
            }
            REMOVE if answer.number == 0 => {
                self.held.retain(|range| range[0] != call.arguments[0]);
                self.note_removal(&before, call.arguments[0], seen);
            }
            _ => {}
        }
        if answer.number == 0 && call.kind != LOOKUP {
            self.held.sort();
            if listed(&self.tree) != self.held {
                return Err(format!("{} {:?}: not the ranges of the list", name(call), call.arguments));
            }
            seen.note(format!("levels_{}", places(&self.tree).1));
        }
        Ok(answer)
    }

    /// Every page by the proved call, as the list has it; also, with the nodes on its path, as the second program.
    fn look_everywhere(&mut self, second: &mut Trees, seen: &mut Seen) -> Result<(), String> {
        let theirs = second.every_page(&self.tree);
        for page in 0..1024 {
            let ours = proved(&mut self.tree, lookup(page));
            let wanted = demanded(&self.held, lookup(page));
            if (ours.number, ours.first) != wanted {
                return Err(format!("lookup {page}: {ours:?}, a list of the ranges {wanted:?}"));
            }
            if ours != theirs[page as usize] {
                return Err(format!("lookup {page}: proved {ours:?}, second program {:?}", theirs[page as usize]));
            }
            if ours.number == 0 {
                seen.note(format!("path_{}", ours.second));
            }
        }
        seen.note("looked_everywhere");
        Ok(())
    }

    /// Counts what an insertion did to the nodes.
    fn note_insertion(&mut self, before: &[u32], seen: &mut Seen) {
        let (old, _) = places(before);
        let (new, _) = places(&self.tree);
        for (number, place) in new.iter().filter(|(number, _)| !old.contains_key(number)) {
            if self.freed.remove(number) {
                seen.note("node_taken_again");
            }
            seen.note(match (old.is_empty(), *number == self.tree[0], place.is_leaf()) {
                (true, _, _) => "first_leaf",
                (_, true, _) => "root_parted",
                (_, _, true) => "leaf_parted",
                _ => "inner_parted",
            });
        }
    }

    /// Counts what a removal did to the nodes. Where two nodes of a level stay and both differ afterwards, they have shared their
    /// ranges: to the left if the left one had too few.
    fn note_removal(&mut self, before: &[u32], base: u32, seen: &mut Seen) {
        let (old, _) = places(before);
        let (new, _) = places(&self.tree);
        let has = |place: &&Place| place.ranges.iter().any(|range| range[0] == base);
        seen.note(match old.values().find(has).unwrap().is_leaf() {
            true => "taken_from_leaf",
            false => "taken_from_above",
        });
        for (number, place) in old.iter().filter(|(number, _)| !new.contains_key(number)) {
            self.freed.insert(*number);
            seen.note(match (new.is_empty(), *number == before[0], place.is_leaf()) {
                (true, _, _) => "emptied",
                (_, true, _) => "root_lowered",
                (_, _, true) => "leaves_merged",
                _ => "inner_merged",
            });
        }
        let differs = |number: &u32| new.contains_key(number) && node(before, *number) != node(&self.tree, *number);
        let altered: Vec<&Place> = old.keys().filter(|n| differs(n)).map(|n| &old[n]).collect();
        for level in 1..=4 {
            let mut two: Vec<&&Place> = altered.iter().filter(|place| place.level == level).collect();
            two.sort_by_key(|place| place.ranges[0][0]);
            if let [left, _] = two[..] {
                let side = if left.ranges.len() == 2 { "left" } else { "right" };
                let kind = if level == 1 { "leaves" } else { "inner" };
                seen.note(format!("{kind}_shared_to_the_{side}"));
            }
        }
    }
}

// Random calls.

/// A range to insert: mostly of eight pages or few more, sometimes refused for any reason.
fn range_to_insert(r: &mut Random, held: &[Range]) -> Range {
    let base = match r.below(12) {
        0 => r.below(1040) as u32,
        // behind a range that is held, or one page too early
        1 if !held.is_empty() => r.pick(held)[1] - r.below(2) as u32,
        2 if !held.is_empty() => r.pick(held)[0].saturating_sub(7 + r.below(3) as u32),
        _ => 8 * r.below(128) as u32,
    };
    let pages = match r.below(16) {
        0 => r.below(8) as u32,
        1 | 2 => 8 + r.below(30) as u32,
        _ => 8,
    };
    let frame = match r.below(16) {
        0 => 4096 - pages + r.below(2) as u32,
        1 => r.pick(&[0, u32::MAX, 4095, 4096, 1 << 31]),
        _ => r.below(4000) as u32,
    };
    let rights = match r.below(24) {
        0 => r.pick(&[8, 9, 16, u32::MAX]),
        1 => r.pick(&RESERVED),
        _ => r.pick(&ALLOWED),
    };
    if r.one_in(60) {
        return [r.word(), r.word(), r.word(), rights];
    }
    [base, base + pages, frame.wrapping_sub(base), rights]
}

/// A BASE to remove: mostly one that is held.
fn base_to_remove(r: &mut Random, held: &[Range]) -> u32 {
    if held.is_empty() || r.one_in(12) {
        let near = held.first().map_or(0, |range| range[0]);
        let any = r.below(1024) as u32;
        let word = r.word();
        return r.pick(&[near + 1, near + 8, any, any, 1017, 1023, 1024, 1025, word]);
    }
    r.pick(held)[0]
}

/// A page to look up: often one at an edge of a range.
fn page_to_look_up(r: &mut Random, held: &[Range]) -> u32 {
    let any = r.below(1024) as u32;
    if held.is_empty() || r.one_in(4) {
        return r.pick(&[any, any, any, 0, 1023, 1024, 1025, u32::MAX]);
    }
    let [base, limit, ..] = r.pick(held);
    r.pick(&[base, limit - 1, limit, base.saturating_sub(1), any])
}

/// How a run goes on: what is called next, or nothing at its end.
struct Plan {
    /// Calls that are decided from the start, last first.
    fixed: Vec<Call>,
    /// Random calls after them: mostly insertions, then mostly removals.
    growing: u32,
    shrinking: u32,
}

impl Plan {
    fn next(&mut self, r: &mut Random, held: &[Range]) -> Option<Call> {
        if let Some(call) = self.fixed.pop() {
            return Some(call);
        }
        let odds = if self.growing > 0 { 8 } else { 2 };
        if self.growing > 0 {
            self.growing -= 1;
        } else if self.shrinking > 0 {
            self.shrinking -= 1;
        } else {
            // whatever is left
            return held.first().map(|range| remove(range[0]));
        }
        Some(match r.below(10) < odds {
            true => insert(range_to_insert(r, held)),
            false => remove(base_to_remove(r, held)),
        })
    }
}

/// The whole space in ranges of eight pages, in an order, and then without them, in another.
fn whole_space(r: &mut Random) -> Vec<Call> {
    let upwards: Vec<u32> = (0..128).collect();
    let downwards: Vec<u32> = (0..128).rev().collect();
    let order = |r: &mut Random| match r.below(4) {
        0 => upwards.clone(),
        1 => downwards.clone(),
        _ => shuffled(r, 128),
    };
    let (fill, clear) = (order(r), order(r));
    let mut calls: Vec<Call> = Vec::new();
    for place in fill {
        calls.push(insert(some_range(r, 8 * place, 8 * place + 8)));
    }
    calls.extend(clear.into_iter().map(|place| remove(8 * place)));
    calls.reverse();
    calls
}

/// The tree that a run starts from, and what it does: fill the space and clear it; grow and shrink from none, or from a tree that
/// no call made.
fn plan(r: &mut Random, seed: u64) -> (Vec<u32>, Plan) {
    let (fixed, growing, shrinking) = match seed % 3 {
        1 => (whole_space(r), 0, 0),
        _ => (Vec::new(), 160, 160),
    };
    let tree = match seed % 3 {
        0 => {
            let levels = 1 + r.below(4) as u32;
            foreign(r, levels)
        }
        _ => empty(),
    };
    let plan = Plan { fixed, growing, shrinking };
    (tree, plan)
}

/// How many calls insert or remove in the run of a seed, at most so many. Whether every page is looked up after each of them that
/// is accepted, or some, makes no difference to the calls.
fn run(second: &mut Trees, seed: u64, most: u64, everywhere: bool, seen: &mut Seen) -> Result<u64, String> {
    let mut r = Random::new(seed);
    let mut pages = Random::new(seed.wrapping_add(1 << 42));
    let (tree, mut plan) = plan(&mut r, seed);
    let mut pair = Pair::new(tree);
    let mut steps = 0;
    while steps < most {
        let Some(call) = plan.next(&mut r, &pair.held) else {
            break;
        };
        steps += 1;
        let told = |what: String| format!("call {steps}: {what}");
        let answer = pair.step(second, call, seen).map_err(told)?;
        if everywhere && answer.number == 0 {
            pair.look_everywhere(second, seen).map_err(|what| format!("after call {steps}: {what}"))?;
        }
        let page = page_to_look_up(&mut pages, &pair.held);
        pair.step(second, lookup(page), seen).map_err(|what| format!("after call {steps}: {what}"))?;
    }
    Ok(steps)
}

/// Runs from this seed on with so many calls that insert or remove; the seed after them.
fn runs(second: &mut Trees, first: u64, steps: u64, everywhere: bool, seen: &mut Seen) -> Result<u64, String> {
    let mut seed = first;
    let mut left = steps;
    while left > 0 {
        let done = run(second, seed, left, everywhere, seen);
        left -= done.map_err(|what| format!("run of seed {seed}, {what}\n  again: compare tree 1000 {seed}"))?;
        seed += 1;
    }
    let pages = if everywhere { "every page" } else { "some pages" };
    println!(
        "  {steps} insertions and removals, {pages} looked up: seeds {first} to {}, equal after every call",
        seed - 1
    );
    Ok(seed)
}

/// The largest tree that there is, by an insertion, and then without each range.
fn largest(second: &mut Trees, seed: u64, seen: &mut Seen) -> Result<(), String> {
    let mut r = Random::new(seed.wrapping_add(1 << 46));
    let (tree, last) = nearly_largest(&mut r);
    let mut pair = Pair::new(tree);
    pair.step(second, insert(last), seen)?;
    seen.note(format!("nodes_{}", places(&pair.tree).0.len()));
    pair.look_everywhere(second, seen)?;
    for place in shuffled(&mut r, 128) {
        pair.step(second, remove(8 * place), seen)?;
    }
    Ok(())
}

// Damaged trees.

/// A call with any arguments, of which others may be refused too.
fn any_call(r: &mut Random, held: &[Range]) -> Call {
    match r.below(3) {
        0 => insert(range_to_insert(r, held)),
        1 => remove(base_to_remove(r, held)),
        _ => lookup(page_to_look_up(r, held)),
    }
}

/// Words that are a tree by chance only, or of a lawful tree with single bits flipped or words exchanged.
fn scratch(r: &mut Random) -> (&'static str, Vec<u32>) {
    let levels = 1 + r.below(4) as u32;
    let mut words = foreign(r, levels);
    let used = places(&words).0;
    let number = r.pick(&used.keys().copied().collect::<Vec<u32>>());
    // mostly in a node that is used
    let near = start_of(number) as u64 + r.below(NODE as u64);
    let any = r.below(TREE as u64);
    let at = r.pick(&[0, near, near, near, near, any]) as usize;
    let what = match r.below(8) {
        0 => {
            words.iter_mut().for_each(|w| *w = r.word());
            "random_words"
        }
        1 => {
            words.iter_mut().for_each(|w| *w = r.below(65) as u32);
            "random_small_words"
        }
        2 => {
            words[at] = r.word();
            "random_word"
        }
        3 => {
            let other = start_of(number) + r.below(NODE as u64) as usize;
            words.swap(at, other);
            "swapped_words"
        }
        4 => {
            words[at] = words[at].wrapping_add(r.pick(&[1, u32::MAX]));
            "little_more_or_less"
        }
        _ => {
            words[at] ^= 1 << r.below(32);
            "flipped_bit"
        }
    };
    (what, words)
}

/// A tree that is damaged in one way answers 2, whatever is asked; scratch answers as the second program says.
fn damaged_trees(second: &mut Trees, first: u64, count: u64, seen: &mut Seen) -> Result<(), String> {
    for seed in first..first + count {
        let again = |what: String| format!("damaged tree of seed {seed}: {what}\n  again: compare tree 1 {seed}");
        let mut r = Random::new(seed.wrapping_add(1 << 43));
        let mut around = Random::new(seed.wrapping_add(1 << 44));
        let levels = 1 + around.below(4) as u32;
        let held = listed(&foreign(&mut around, levels));
        if r.one_in(4) {
            let (what, mut words) = scratch(&mut r);
            let answer = both(second, &mut words, any_call(&mut r, &held), seen).map_err(|e| again(format!("{what}: {e}")))?;
            let found = if answer.number == 2 { "found" } else { "lawful" };
            seen.note(format!("{what}_{found}"));
        } else {
            let kind = KINDS[(seed % KINDS.len() as u64) as usize];
            let mut words = damaged(&mut r, kind);
            let call = any_call(&mut r, &held);
            let answer = both(second, &mut words, call, seen).map_err(|e| again(format!("{kind}: {e}")))?;
            if answer.number != 2 {
                return Err(again(format!(
                    "{kind}, {} {:?}: both answer {}, not 2",
                    name(call),
                    call.arguments,
                    answer.number
                )));
            }
            seen.note(format!("{kind}_found_by_{}", name(call)));
        }
    }
    println!("  damaged trees: seeds {first} to {}, equal", first + count - 1);
    Ok(())
}

// Lengths.

const LENGTHS: [usize; 5] = [0, 1, 1536, 1538, 3074];
const PLACES: [usize; 4] = [0, 1, 3, 4];

/// Trees of another length, and places of another length for the values: 1, and nothing is altered. A place of two words gets zeros,
/// another stays as it was.
fn lengths(second: &mut Trees, seed: u64, seen: &mut Seen) -> Result<(), String> {
    let mut r = Random::new(seed);
    let lawful = foreign(&mut r, 3);
    let held = listed(&lawful);
    let calls = [
        insert(held[0]),
        insert([0, 0, 0, 9]),
        remove(held[0][0]),
        remove(1024),
        lookup(held[0][0]),
        lookup(1024),
    ];
    for call in calls {
        for length in LENGTHS {
            for start in [&lawful, &empty(), &vec![7; TREE]] {
                let mut words = start.clone();
                words.resize(length, 0);
                let answer = both(second, &mut words, call, seen)?;
                if answer.number != 1 {
                    return Err(format!("{} of a tree of {length} words: {answer:?}", name(call)));
                }
                seen.note(format!("length_{length}"));
            }
        }
        for place in PLACES {
            for start in [&lawful, &empty(), &vec![7; TREE], &vec![]] {
                let mut words = start.clone();
                let mut values = vec![VALUES[0]; place];
                let number = into(&mut words, call, &mut values);
                if number != 1 || values != vec![VALUES[0]; place] || words != *start {
                    return Err(format!(
                        "{} with a place of {place} words: number {number}, or something is written",
                        name(call)
                    ));
                }
                seen.note(format!("place_of_{place}_{}", name(call)));
            }
        }
    }
    Ok(())
}

// The range tables of spaces.

/// A state in which spaces have many ranges: spans of eight pages or more with rights that change from span to span, then some of
/// them unmapped or given other rights in part.
fn crowded(r: &mut Random) -> World {
    let mut world = World::zeroed();
    let mut make = |kind, arguments| world.call(Call { kind, arguments });
    make(SET_UP_POOL, [4096, 0, 0, 0]);
    for space in 0..4 {
        make(OPEN, [space, 0, 0, 0]);
        let narrow = r.one_in(3);
        let (mut at, mut turn) = (0, 0);
        while at + 8 <= 1024 {
            let count = if narrow { 8 } else { 8 + r.below(9) as u32 };
            make(MAP, [space, at, count.min(1024 - at), ALLOWED[turn % ALLOWED.len()]]);
            at += count + if narrow || r.one_in(2) { 0 } else { r.below(4) as u32 };
            turn += 1;
        }
        for _ in 0..if narrow { 0 } else { r.below(8) } {
            let (first, count) = (r.below(1000) as u32, 1 + r.below(24) as u32);
            make(PROTECT, [space, first, count, r.pick(&ALLOWED)]);
            make(UNMAP, [space, r.below(1000) as u32, 1 + r.below(4) as u32, 0]);
        }
    }
    world
}

/// A tree filled with a space's range table, entry by entry, answers each page as the page words have it.
fn space_as_tree(second: &mut Trees, world: &World, space: u32, seen: &mut Seen) -> Result<(), String> {
    let mut tree = empty();
    let used = world.ranges_used(space) as usize;
    for entry in world.ranges[512 * space as usize..].chunks(4).take(used) {
        let answer = both(second, &mut tree, insert([entry[0], entry[1], entry[2], entry[3]]), seen)?;
        if answer.number != 0 {
            return Err(format!("entry {entry:?} of space {space} is refused with {}", answer.number));
        }
    }
    for (page, word) in (0..).zip(world.space_pages(space)) {
        let answer = proved(&mut tree, lookup(page));
        let wanted = match word & 32768 {
            0 => (12, 0),
            _ => (0, word % 32768),
        };
        if (answer.number, answer.first) != wanted {
            return Err(format!("page {page} of space {space}: {answer:?}, by its word {wanted:?}"));
        }
    }
    seen.note(if used == 0 { "space_without_ranges" } else { "space_with_ranges" });
    seen.add("ranges_of_spaces", used as u64);
    if used == 128 {
        seen.note("space_of_128_ranges");
    }
    Ok(())
}

fn spaces(second: &mut Trees, first: u64, count: u64, seen: &mut Seen) -> Result<(), String> {
    for seed in first..first + count {
        let mut r = Random::new(seed.wrapping_add(1 << 45));
        let world = if seed % 4 == 0 { crowded(&mut r) } else { states::state(&mut r) };
        for space in 0..4 {
            let told = |what: String| format!("state of seed {seed}: {what}\n  again: compare tree 1 {seed}");
            space_as_tree(second, &world, space, seen).map_err(told)?;
        }
    }
    println!(
        "  range tables as trees: four spaces each of seeds {first} to {}, each page as its word",
        first + count - 1
    );
    Ok(())
}

// Stored calls.

fn number(text: &str) -> u32 {
    match text.strip_prefix("0x") {
        Some(digits) => u32::from_str_radix(digits, 16).unwrap(),
        None => text.parse().unwrap(),
    }
}

/// The calls of a stored text by the proved manager, as lines.
fn made(text: &str) -> String {
    let mut tree = empty();
    let mut lines = "line call answer first second\n".to_string();
    for (at, line) in (1..).zip(text.lines()) {
        let mut words = line.split('#').next().unwrap().split_whitespace();
        let Some(called) = words.next() else {
            continue;
        };
        let mut arguments = [0; 4];
        words.zip(&mut arguments).for_each(|(word, argument)| *argument = number(word));
        let kind = NAMES.iter().position(|name| called == format!("tree_{name}"));
        let kind = 1 + kind.unwrap_or_else(|| panic!("line {at}: no call on a tree")) as u32;
        let answer = proved(&mut tree, Call { kind, arguments });
        lines += &format!("{at} {called} {} {} {}\n", answer.number, answer.first, answer.second);
    }
    lines
}

fn stored() -> Result<(), String> {
    for name in ["tree", "rangetree"] {
        let read = |kind: &str| std::fs::read_to_string(root().join(format!("tests/hard/{name}.{kind}"))).unwrap();
        let (ours, wanted) = (made(&read("calls")), read("lines"));
        if let Some((ours, wanted)) = ours.lines().zip(wanted.lines()).find(|(a, b)| a != b) {
            return Err(format!("tests/hard/{name}.calls: {ours}, stored {wanted}\n  again: compare tree 1"));
        }
        if ours.len() != wanted.len() {
            return Err(format!("tests/hard/{name}.calls: not as many lines as stored\n  again: compare tree 1"));
        }
    }
    println!("  2 stored texts");
    Ok(())
}

/// What must have been reached.
fn must() -> Vec<String> {
    let mut must: Vec<String> = Vec::new();
    must.extend([0, 1, 2, 6, 17, 8, 11].map(|n| format!("insert_{n}")));
    must.extend([0, 1, 2, 8, 12].map(|n| format!("remove_{n}")));
    must.extend([0, 1, 2, 8, 12].map(|n| format!("lookup_{n}")));
    must.extend((1..=4).map(|n| format!("levels_{n}")));
    must.extend((1..=4).map(|n| format!("path_{n}")));
    must.extend(["first_leaf", "leaf_parted", "inner_parted", "root_parted", "node_taken_again"].map(String::from));
    must.extend(
        [
            "taken_from_leaf",
            "taken_from_above",
            "leaves_merged",
            "inner_merged",
            "root_lowered",
            "emptied",
        ]
        .map(String::from),
    );
    for side in ["left", "right"] {
        must.extend(["leaves", "inner"].map(|kind| format!("{kind}_shared_to_the_{side}")));
    }
    for kind in KINDS {
        must.extend(NAMES.map(|name| format!("{kind}_found_by_{name}")));
    }
    must.extend(["random_words", "random_small_words", "random_word", "swapped_words"].map(|what| format!("{what}_found")));
    for what in ["flipped_bit", "little_more_or_less"] {
        must.extend(["found", "lawful"].map(|how| format!("{what}_{how}")));
    }
    must.push("nodes_62".to_string());
    must.extend(LENGTHS.map(|n| format!("length_{n}")));
    must.extend(PLACES.iter().flat_map(|n| NAMES.map(|name| format!("place_of_{n}_{name}"))));
    must.extend(["space_with_ranges", "space_without_ranges", "space_of_128_ranges", "ranges_of_spaces"].map(String::from));
    must
}

pub fn compare(steps: u64, first: u64) -> bool {
    let mut second = Trees::start();
    let mut seen = Seen::default();
    println!("trees of ranges:");
    let again = |what: String| format!("{what}\n  again: compare tree 1 {first}");
    let compared = stored()
        .and_then(|()| lengths(&mut second, first, &mut seen).map_err(again))
        .and_then(|()| largest(&mut second, first, &mut seen).map_err(again))
        .and_then(|()| runs(&mut second, first, steps, true, &mut seen))
        .and_then(|next| runs(&mut second, next, 10 * steps, false, &mut seen))
        .and_then(|_| damaged_trees(&mut second, first, 20 * steps, &mut seen))
        .and_then(|()| spaces(&mut second, first, 1 + steps / 20, &mut seen));
    if let Err(what) = compared {
        println!("{what}");
        return false;
    }
    let must = if steps >= 1000 { must() } else { Vec::new() };
    seen.report(&must)
}
