//! Trees of ranges as words: laid out by hand, and looked at from outside. Nothing here inserts or removes.
use crate::random::Random;
use crate::rights::ALLOWED;
use std::collections::BTreeMap;

pub const TREE: usize = 1537;
/// The root's number in an empty tree.
pub const EMPTY: u32 = 64;
pub const NODES: u32 = 64;
/// Words of a node.
pub const NODE: usize = 24;

// places in a node
pub const COUNT: usize = 0;
pub const LEAF: usize = 1;
pub const RANGES: usize = 2;
pub const CHILDREN: usize = 18;
pub const LAST: usize = 23;

/// BASE, LIMIT, OFFSET, rights.
pub type Range = [u32; 4];

pub fn empty() -> Vec<u32> {
    let mut words = vec![0; TREE];
    words[0] = EMPTY;
    words
}

pub fn start_of(number: u32) -> usize {
    1 + NODE * number as usize
}

pub fn node(words: &[u32], number: u32) -> &[u32] {
    &words[start_of(number)..][..NODE]
}

/// Where the words of a node's range begin in the buffer.
pub fn range_at(number: u32, place: usize) -> usize {
    start_of(number) + RANGES + 4 * place
}

/// A node with all below it.
#[derive(Clone)]
pub struct Form {
    pub ranges: Vec<Range>,
    pub children: Vec<Form>,
}

impl Form {
    fn lay(&self, words: &mut [u32], numbers: &mut impl Iterator<Item = u32>) -> u32 {
        let number = numbers.next().expect("a form has at most 64 nodes");
        let at = start_of(number);
        words[at + COUNT] = self.ranges.len() as u32;
        words[at + LEAF] = u32::from(self.children.is_empty());
        for (place, range) in self.ranges.iter().enumerate() {
            words[at + RANGES + 4 * place..][..4].copy_from_slice(range);
        }
        for (place, child) in self.children.iter().enumerate() {
            words[at + CHILDREN + place] = child.lay(words, numbers);
        }
        number
    }

    /// The words of it, with its nodes at any numbers.
    pub fn laid_out(&self, r: &mut Random) -> Vec<u32> {
        let mut words = vec![0; TREE];
        let mut numbers = shuffled(r, NODES).into_iter();
        words[0] = self.lay(&mut words, &mut numbers);
        words
    }

    fn count(&self) -> (usize, usize) {
        let below = self.children.iter().map(Form::count);
        below.fold((1, self.ranges.len()), |(n, m), (nodes, ranges)| (n + nodes, m + ranges))
    }

    /// Gives the ranges, which so far are only counted, their words in ascending order.
    fn fill(&mut self, ranges: &mut impl Iterator<Item = Range>) {
        for place in 0..self.ranges.len() {
            if let Some(child) = self.children.get_mut(place) {
                child.fill(ranges);
            }
            self.ranges[place] = ranges.next().unwrap();
        }
        if let Some(child) = self.children.get_mut(self.ranges.len()) {
            child.fill(ranges);
        }
    }
}

/// The numbers below n in some order.
pub fn shuffled(r: &mut Random, n: u32) -> Vec<u32> {
    let mut all: Vec<u32> = (0..n).collect();
    for at in (1..all.len()).rev() {
        all.swap(at, r.below(at as u64 + 1) as usize);
    }
    all
}

/// A form of so many levels, with numbers of ranges from `least` up in nodes below the root; none where it is too large.
fn some_form(r: &mut Random, levels: u32, least: u64) -> Option<Form> {
    fn grow(r: &mut Random, levels: u32, count: u64, least: u64, more: u64) -> Form {
        let mut children = Vec::new();
        if levels > 1 {
            for _ in 0..=count {
                let count = least + if r.one_in(3) { r.below(more) } else { 0 };
                children.push(grow(r, levels - 1, count, least, more));
            }
        }
        Form {
            ranges: vec![[0; 4]; count as usize],
            children,
        }
    }
    let count = if levels < 4 { 1 + r.below(4) } else { 1 + r.below(2) };
    // as full as its levels allow
    let more = if levels < 4 { 5 - least } else { 2 };
    let mut form = grow(r, levels, count, least, more);
    let (nodes, ranges) = form.count();
    if nodes > NODES as usize || ranges > 128 {
        return None;
    }
    let mut listed = some_ranges(r, ranges).into_iter();
    form.fill(&mut listed);
    Some(form)
}

/// Ascending ranges with gaps or without, some of them at an edge of what is allowed.
fn some_ranges(r: &mut Random, n: usize) -> Vec<Range> {
    let mut at = 0;
    let mut ranges = Vec::new();
    for i in 0..n as u64 {
        let left = n as u64 - i;
        let spare = |at: u64| (1024 - at - 8 * left) / left + 1;
        let base = at + if r.one_in(3) { 0 } else { r.below(spare(at)) };
        let pages = 8 + if r.one_in(3) { 0 } else { r.below(spare(base)) };
        at = base + pages;
        ranges.push(some_range(r, base as u32, at as u32));
    }
    if let Some(last) = ranges.last_mut().filter(|_| r.one_in(4)) {
        // up to the end of the space
        *last = some_range(r, last[0], 1024);
    }
    ranges
}

/// A range of these pages that insertion would take, by itself.
pub fn some_range(r: &mut Random, base: u32, limit: u32) -> Range {
    let most = 4096 - (limit - base);
    let any = r.below(u64::from(most) + 1) as u32;
    let frame = r.pick(&[0, most, any, any, any]);
    [base, limit, frame.wrapping_sub(base), r.pick(&ALLOWED)]
}

/// A form of a lawful tree with so many levels.
pub fn lawful_form(r: &mut Random, levels: u32) -> Form {
    loop {
        if let Some(form) = some_form(r, levels, 2) {
            return form;
        }
    }
}

/// A form of so many levels in which nodes may have one range.
pub fn thin_form(r: &mut Random, levels: u32) -> Form {
    loop {
        if let Some(form) = some_form(r, levels, 1) {
            return form;
        }
    }
}

/// A lawful tree that need not come from any calls: nodes anywhere, with two to four ranges.
pub fn foreign(r: &mut Random, levels: u32) -> Vec<u32> {
    lawful_form(r, levels).laid_out(r)
}

/// A form with these children, and no words yet in its ranges.
fn above(children: Vec<Form>) -> Form {
    Form {
        ranges: vec![[0; 4]; children.len() - 1],
        children,
    }
}

/// The number, in order, of the first range of the leaf that has four.
fn full_leaf(form: &Form, before: &mut u32) -> Option<u32> {
    if form.children.is_empty() && form.ranges.len() == 4 {
        return Some(*before);
    }
    for place in 0..=form.ranges.len() {
        if let Some(child) = form.children.get(place) {
            if let Some(found) = full_leaf(child, before) {
                return Some(found);
            }
        }
        *before += u32::from(place < form.ranges.len());
    }
    None
}

/// A tree of 61 nodes with 127 ranges of eight pages, and the range that fills the space: it parts the only leaf that has four, and
/// the tree then has 62 nodes, as many as a lawful one can have.
pub fn nearly_largest(r: &mut Random) -> (Vec<u32>, Range) {
    let full = r.below(42);
    let leaf = |i: u64| Form {
        ranges: vec![[0; 4]; if i == full { 4 } else { 2 }],
        children: Vec::new(),
    };
    let mut lower = (0..14).map(|i| above((3 * i..3 * i + 3).map(leaf).collect()));
    let widths = r.pick(&[[3, 3, 4, 4], [3, 4, 3, 4], [4, 4, 3, 3], [4, 3, 3, 4]]);
    let upper = widths.map(|n| above(lower.by_ref().take(n).collect()));
    let mut form = above(upper.into());
    let free = full_leaf(&form, &mut 0).unwrap() + r.below(5) as u32;
    let eight = |r: &mut Random, place: u32| some_range(r, 8 * place, 8 * place + 8);
    let ranges: Vec<Range> = (0..128).filter(|place| *place != free).map(|place| eight(r, place)).collect();
    form.fill(&mut ranges.into_iter());
    (form.laid_out(r), eight(r, free))
}

/// A node of a lawful tree.
pub struct Place {
    pub above: Option<u32>,
    /// 1 for a leaf.
    pub level: u32,
    pub ranges: Vec<Range>,
}

impl Place {
    pub fn is_leaf(&self) -> bool {
        self.level == 1
    }
}

/// The nodes of a lawful tree by their numbers, and the levels that it has.
pub fn places(words: &[u32]) -> (BTreeMap<u32, Place>, u32) {
    let mut places = BTreeMap::new();
    if words[0] == EMPTY {
        return (places, 0);
    }
    let levels = look(words, words[0], None, &mut places);
    (places, levels)
}

fn look(words: &[u32], number: u32, above: Option<u32>, places: &mut BTreeMap<u32, Place>) -> u32 {
    let node = node(words, number);
    let count = node[COUNT] as usize;
    let ranges = node[RANGES..][..4 * count].chunks(4).map(|w| [w[0], w[1], w[2], w[3]]).collect();
    let children = match node[LEAF] {
        0 => &node[CHILDREN..][..=count],
        _ => &[],
    };
    let below = children.iter().map(|child| look(words, *child, Some(number), places));
    let level = 1 + below.max().unwrap_or(0);
    places.insert(number, Place { above, level, ranges });
    level
}

/// The ranges of a lawful tree, in order.
pub fn listed(words: &[u32]) -> Vec<Range> {
    let (places, _) = places(words);
    let mut all: Vec<Range> = places.values().flat_map(|p| p.ranges.clone()).collect();
    all.sort();
    all
}
