//! The range table as a B-tree in lent words. They are judged, read into nodes that
//! own their children, worked on there, and all written back.

use std::collections::BTreeSet;

use crate::tables::rights_given;
use crate::unit::Rules;
use crate::words::{all_are, Outcome, SPAN, THRESHOLD};

/// Words of a tree: the root's number, then the nodes.
pub const TREE: usize = 1 + NODES as usize * NODE;
/// The root's number in an empty tree.
pub const EMPTY: u32 = 64;
pub const NODES: u32 = 64;
/// Words of a node: range count, leaf word, four ranges, five children, a zero.
pub const NODE: usize = 24;

// Places in a node.
pub const COUNT: usize = 0;
pub const LEAF: usize = 1;
pub const RANGES: usize = 2;
pub const CHILDREN: usize = 18;
pub const LAST: usize = 23;

/// Ranges of a node at most, and at least below the root.
const MOST: usize = 4;
const LEAST: usize = 2;

const TOP_FRAME: u32 = 4095;

#[derive(Clone, Copy, PartialEq, Eq, Debug)]
pub struct Range {
    pub base: u32,
    pub limit: u32,
    pub offset: u32,
    pub rights: u32,
}

impl Range {
    pub fn from_words(words: [u32; 4]) -> Range {
        let [base, limit, offset, rights] = words;
        Range {
            base,
            limit,
            offset,
            rights,
        }
    }

    pub fn to_words(self) -> [u32; 4] {
        [self.base, self.limit, self.offset, self.rights]
    }

    /// LIMIT is not covered.
    fn has(&self, page: u32, rules: &Rules) -> bool {
        self.base <= page && (page < self.limit || rules.tree_limit_covered && page == self.limit)
    }

    fn frame_of(&self, page: u32, rules: &Rules) -> u32 {
        match rules.stops_at_the_top {
            true => page.saturating_add(self.offset),
            false => page.wrapping_add(self.offset),
        }
    }

    fn overlaps(&self, other: &Range) -> bool {
        self.base < other.limit && other.base < self.limit
    }
}

/// Refusals 6, 17 and 8 of a range by itself, in this order.
fn fits(range: &Range, rules: &Rules) -> Result<(), u32> {
    rights_given(range.rights)?;
    let mut pages = range.base..range.limit;
    if range.limit > SPAN as u32 || pages.len() < THRESHOLD {
        return Err(8);
    }
    if pages.any(|page| range.frame_of(page, rules) > TOP_FRAME) {
        return Err(8);
    }
    Ok(())
}

/// The refusals of a range that is put beside others.
fn fits_beside<'a>(
    range: &Range,
    mut others: impl Iterator<Item = &'a Range>,
    rules: &Rules,
) -> Result<(), u32> {
    fits(range, rules)?;
    if others.any(|other| range.overlaps(other)) {
        return Err(11);
    }
    Ok(())
}

/// A node with the tree below it. A leaf has no children, another node has one more
/// than ranges.
#[derive(Clone, PartialEq, Eq, Debug)]
pub struct Node {
    pub number: u32,
    pub ranges: Vec<Range>,
    pub children: Vec<Node>,
}

impl Node {
    fn is_leaf(&self) -> bool {
        self.children.is_empty()
    }

    /// The ranges of the tree from here on, in its order.
    fn list(&self, ranges: &mut Vec<Range>) {
        for (at, range) in self.ranges.iter().enumerate() {
            if let Some(child) = self.children.get(at) {
                child.list(ranges);
            }
            ranges.push(*range);
        }
        if let Some(child) = self.children.get(self.ranges.len()) {
            child.list(ranges);
        }
    }

    fn numbers(&self, numbers: &mut BTreeSet<u32>) {
        numbers.insert(self.number);
        for child in &self.children {
            child.numbers(numbers);
        }
    }

    /// The place before the first range that passes the test, or the last place.
    fn place(&self, test: impl Fn(&Range) -> bool) -> usize {
        self.ranges
            .iter()
            .position(test)
            .unwrap_or(self.ranges.len())
    }

    fn write(&self, words: &mut [u32]) {
        let node = &mut words[start_of(self.number)..][..NODE];
        node[COUNT] = self.ranges.len() as u32;
        node[LEAF] = self.is_leaf().into();
        let ranges = self.ranges.iter().flat_map(|range| range.to_words());
        for (word, put) in node[RANGES..CHILDREN].iter_mut().zip(ranges) {
            *word = put;
        }
        for (word, child) in node[CHILDREN..LAST].iter_mut().zip(&self.children) {
            *word = child.number;
        }
        for child in &self.children {
            child.write(words);
        }
    }
}

/// The child at a place among the ranges.
fn child_at(place: usize, rules: &Rules) -> usize {
    match rules.left_child {
        true => place.saturating_sub(1),
        false => place,
    }
}

// What a lawful tree is.

fn start_of(number: u32) -> usize {
    1 + NODE * number as usize
}

fn node_words(words: &[u32], number: u32) -> &[u32] {
    &words[start_of(number)..][..NODE]
}

/// The children of a node that keeps its layout.
fn children(node: &[u32]) -> &[u32] {
    match node[LEAF] {
        1 => &[],
        _ => &node[CHILDREN..=CHILDREN + node[COUNT] as usize],
    }
}

/// Whether a node has as many ranges as it may, a leaf word, and zeros in what is
/// left of it.
fn keeps_layout(node: &[u32], is_root: bool) -> bool {
    let least = if is_root { 1 } else { LEAST };
    let count = node[COUNT] as usize;
    if !(least..=MOST).contains(&count) || node[LEAF] > 1 {
        return false;
    }
    let after_ranges = &node[RANGES + 4 * count..CHILDREN];
    let after_children = &node[CHILDREN + children(node).len()..];
    all_are(after_ranges, 0) && all_are(after_children, 0)
}

/// The nodes of each level, from the root down. None if a number names no node, if a
/// node is reached twice or if it does not keep its layout.
fn levels(words: &[u32]) -> Option<Vec<Vec<u32>>> {
    let mut reached = BTreeSet::new();
    let mut levels: Vec<Vec<u32>> = Vec::new();
    let mut level = vec![words[0]];
    while !level.is_empty() {
        let mut below = Vec::new();
        for &number in &level {
            if number >= NODES || !reached.insert(number) {
                return None;
            }
            let node = node_words(words, number);
            if !keeps_layout(node, levels.is_empty()) {
                return None;
            }
            below.extend(children(node));
        }
        levels.push(level);
        level = below;
    }
    Some(levels)
}

/// Whether the nodes have the form of a tree and nothing else has a word.
fn well_formed(words: &[u32]) -> bool {
    let Some(levels) = levels(words) else {
        return false;
    };
    let depth_of = |number: u32| levels.iter().position(|level| level.contains(&number));
    let depths: Vec<Option<usize>> = (0..NODES).map(depth_of).collect();
    let mut leaf_depths = BTreeSet::new();
    for (number, depth) in (0..NODES).zip(depths) {
        let node = node_words(words, number);
        match depth {
            None if !all_are(node, 0) => return false,
            Some(depth) if node[LEAF] == 1 => {
                leaf_depths.insert(depth);
            }
            _ => {}
        }
    }
    leaf_depths.len() == 1
}

/// A node of a well-formed tree, with all below it.
fn read_node(words: &[u32], number: u32) -> Node {
    let node = node_words(words, number);
    let ranges = node[RANGES..CHILDREN].chunks_exact(4);
    let ranges = ranges.map(|r| Range::from_words([r[0], r[1], r[2], r[3]]));
    let children = children(node).iter();
    Node {
        number,
        ranges: ranges.take(node[COUNT] as usize).collect(),
        children: children.map(|&child| read_node(words, child)).collect(),
    }
}

/// Whether ranges ascend by BASE and each could be inserted beside the others.
fn stand_together(ranges: &[Range], rules: &Rules) -> bool {
    let ascend = ranges.windows(2).all(|two| two[0].base < two[1].base);
    let mut places = 0..ranges.len();
    ascend
        && places.all(|at| {
            let others = ranges[..at].iter().chain(&ranges[at + 1..]);
            fits_beside(&ranges[at], others, rules).is_ok()
        })
}

/// A lawful tree.
#[derive(Clone, PartialEq, Eq, Debug)]
pub struct Tree {
    pub root: Option<Node>,
}

impl Tree {
    /// Refusals 1 and 2, or the tree.
    pub fn judged(words: &[u32], rules: &Rules) -> Result<Tree, u32> {
        if words.len() != TREE {
            return Err(1);
        }
        if words[0] == EMPTY {
            return match all_are(&words[1..], 0) {
                true => Ok(Tree { root: None }),
                false => Err(2),
            };
        }
        if !well_formed(words) {
            return Err(2);
        }
        let tree = Tree {
            root: Some(read_node(words, words[0])),
        };
        match stand_together(&tree.ranges(), rules) {
            true => Ok(tree),
            false => Err(2),
        }
    }

    pub fn ranges(&self) -> Vec<Range> {
        let mut ranges = Vec::new();
        if let Some(root) = &self.root {
            root.list(&mut ranges);
        }
        ranges
    }

    fn unused(&self) -> Unused {
        let mut used = BTreeSet::new();
        if let Some(root) = &self.root {
            root.numbers(&mut used);
        }
        Unused((0..NODES).filter(|number| !used.contains(number)).collect())
    }

    /// All words of the tree.
    fn write(&self, words: &mut [u32]) {
        words.fill(0);
        words[0] = EMPTY;
        if let Some(root) = &self.root {
            words[0] = root.number;
            root.write(words);
        }
    }

    fn find(&self, page: u32, rules: &Rules) -> Outcome {
        if page >= SPAN as u32 {
            return Err(8);
        }
        let root = self.root.as_ref().ok_or(12u32)?;
        let (range, nodes) = find_below(root, page, rules).ok_or(12u32)?;
        let frame = range.frame_of(page, rules);
        Ok((4096 * range.rights + frame, nodes))
    }
}

/// The range that has the page, and the nodes from here down to it.
fn find_below<'a>(node: &'a Node, page: u32, rules: &Rules) -> Option<(&'a Range, u32)> {
    if let Some(range) = node.ranges.iter().find(|range| range.has(page, rules)) {
        return Some((range, if rules.steps_counted { 0 } else { 1 }));
    }
    let place = node.place(|range| range.base > page);
    let child = node.children.get(child_at(place, rules))?;
    let (range, nodes) = find_below(child, page, rules)?;
    Some((range, nodes + 1))
}

// Insertion.

/// The numbers of nodes that are not in use.
struct Unused(BTreeSet<u32>);

impl Unused {
    fn take(&mut self, rules: &Rules) -> u32 {
        let taken = match rules.from_the_top {
            true => self.0.pop_last(),
            false => self.0.pop_first(),
        };
        taken.expect("no lawful tree uses all nodes")
    }
}

/// A range that goes up, and the node that becomes the child behind it.
type Parted = Option<(Range, Node)>;

fn insert_below(node: &mut Node, range: Range, unused: &mut Unused, rules: &Rules) -> Parted {
    let place = node.place(|other| other.base > range.base);
    if node.is_leaf() {
        node.ranges.insert(place, range);
    } else {
        let child = child_at(place, rules);
        let parted = insert_below(&mut node.children[child], range, unused, rules);
        if let Some((up, behind)) = parted {
            node.ranges.insert(child, up);
            node.children.insert(child + 1, behind);
        }
    }
    part(node, unused, rules)
}

/// Parts a node that has too many ranges: two stay, one goes up, two go to a new
/// node, each with their children.
fn part(node: &mut Node, unused: &mut Unused, rules: &Rules) -> Parted {
    if node.ranges.len() <= MOST {
        return None;
    }
    let mut ranges = node.ranges.split_off(LEAST);
    let children = match node.is_leaf() {
        true => Vec::new(),
        false => node.children.split_off(LEAST + 1),
    };
    let up = match rules.middle_stays {
        true => ranges[0],
        false => ranges.remove(0),
    };
    let number = unused.take(rules);
    Some((
        up,
        Node {
            number,
            ranges,
            children,
        },
    ))
}

fn put_into(root: Option<Node>, range: Range, unused: &mut Unused, rules: &Rules) -> Node {
    let Some(mut root) = root else {
        return Node {
            number: unused.take(rules),
            ranges: vec![range],
            children: Vec::new(),
        };
    };
    match insert_below(&mut root, range, unused, rules) {
        None => root,
        Some((up, behind)) => Node {
            number: unused.take(rules),
            ranges: vec![up],
            children: vec![root, behind],
        },
    }
}

// Removal.

/// Takes out the range with that BASE. None if the way down does not meet it.
fn remove_below(node: &mut Node, base: u32, merged: &mut Vec<u32>, rules: &Rules) -> Option<Range> {
    let place = node.place(|range| range.base >= base);
    let is_here = node.ranges.get(place).is_some_and(|r| r.base == base);
    if node.is_leaf() {
        return is_here.then(|| node.ranges.remove(place));
    }
    if is_here {
        let before = take_last(&mut node.children[place], merged, rules);
        let removed = std::mem::replace(&mut node.ranges[place], before);
        even_out(node, place, merged, rules);
        return Some(removed);
    }
    let child = child_at(place, rules);
    let removed = remove_below(&mut node.children[child], base, merged, rules)?;
    even_out(node, child, merged, rules);
    Some(removed)
}

/// Takes out the last range of the leaves below.
fn take_last(node: &mut Node, merged: &mut Vec<u32>, rules: &Rules) -> Range {
    if node.is_leaf() {
        return node.ranges.pop().expect("a leaf has a range");
    }
    let child = node.children.len() - 1;
    let last = take_last(&mut node.children[child], merged, rules);
    even_out(node, child, merged, rules);
    last
}

/// Looks at a child that may have lost a range and at its right neighbour, or its left
/// one where it is the last. If one of the two has too few ranges, both become one
/// node, which is noted, or share what they have.
fn even_out(node: &mut Node, child: usize, merged: &mut Vec<u32>, rules: &Rules) {
    let left = child.min(node.children.len() - 2);
    let two = &node.children[left..left + 2];
    if rules.thin || two.iter().all(|n| n.ranges.len() >= LEAST) {
        return;
    }
    let mut right_node = node.children.remove(left + 1);
    let left_node = &mut node.children[left];
    let row = &mut left_node.ranges;
    row.push(node.ranges[left]);
    row.append(&mut right_node.ranges);
    left_node.children.append(&mut right_node.children);
    if row.len() <= MOST {
        node.ranges.remove(left);
        merged.push(right_node.number);
        return;
    }
    let stay = match rules.row_halved {
        true => row.len() / 2,
        false => LEAST,
    };
    right_node.ranges = row.split_off(stay + 1);
    node.ranges[left] = row.pop().expect("a row of at least five");
    if !left_node.is_leaf() {
        right_node.children = left_node.children.split_off(stay + 1);
    }
    node.children.insert(left + 1, right_node);
}

/// A root without ranges gives way to its only child.
fn lowered(mut root: Node) -> Option<Node> {
    match root.ranges.is_empty() {
        true => root.children.pop(),
        false => Some(root),
    }
}

// The calls.

/// A tree without ranges.
pub fn empty() -> Vec<u32> {
    let mut words = vec![0; TREE];
    words[0] = EMPTY;
    words
}

pub fn insert(words: &mut [u32], range: Range, rules: &Rules) -> Outcome {
    let mut tree = Tree::judged(words, rules)?;
    fits_beside(&range, tree.ranges().iter(), rules)?;
    let mut unused = tree.unused();
    tree.root = Some(put_into(tree.root, range, &mut unused, rules));
    tree.write(words);
    Ok((0, 0))
}

pub fn remove(words: &mut [u32], base: u32, rules: &Rules) -> Outcome {
    let mut tree = Tree::judged(words, rules)?;
    if base >= SPAN as u32 {
        return Err(8);
    }
    let mut root = tree.root.ok_or(12u32)?;
    let mut merged = Vec::new();
    remove_below(&mut root, base, &mut merged, rules).ok_or(12u32)?;
    tree.root = lowered(root);
    let before = words.to_vec();
    tree.write(words);
    if rules.leftover {
        for at in merged.into_iter().map(start_of) {
            words[at..at + NODE].copy_from_slice(&before[at..at + NODE]);
        }
    }
    Ok((0, 0))
}

pub fn lookup(words: &[u32], page: u32, rules: &Rules) -> Outcome {
    Tree::judged(words, rules)?.find(page, rules)
}

/// A lookup of each page of a space.
pub fn lookups(words: &[u32], rules: &Rules) -> Vec<Outcome> {
    let tree = Tree::judged(words, rules);
    let found = |page| match &tree {
        Ok(tree) => tree.find(page, rules),
        Err(refusal) => Err(*refusal),
    };
    (0..SPAN as u32).map(found).collect()
}

#[derive(Clone, Copy, PartialEq, Eq, Debug)]
pub enum Call {
    Insert(Range),
    /// By BASE.
    Remove(u32),
    /// By page.
    Lookup(u32),
}

pub const NAMES: [&str; 3] = ["tree_insert", "tree_remove", "tree_lookup"];
pub const ARGS: [usize; 3] = [4, 1, 1];

impl Call {
    /// The call by its place among the names, with as many arguments as it needs of
    /// these four.
    pub fn new(which: usize, args: [u32; 4]) -> Option<Call> {
        match which {
            0 => Some(Call::Insert(Range::from_words(args))),
            1 => Some(Call::Remove(args[0])),
            2 => Some(Call::Lookup(args[0])),
            _ => None,
        }
    }

    pub fn name(&self) -> &'static str {
        match self {
            Call::Insert(_) => NAMES[0],
            Call::Remove(_) => NAMES[1],
            Call::Lookup(_) => NAMES[2],
        }
    }

    pub fn perform(&self, words: &mut [u32], rules: &Rules) -> Outcome {
        match *self {
            Call::Insert(range) => insert(words, range, rules),
            Call::Remove(base) => remove(words, base, rules),
            Call::Lookup(page) => lookup(words, page, rules),
        }
    }
}
