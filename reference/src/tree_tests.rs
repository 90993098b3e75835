//! The range tree against a slow model: a list of ranges, and where a page's range
//! stands by the words alone.

use crate::gen::Random;
use crate::state;
use crate::text;
use crate::tree::*;
use crate::unit::Rules;
use crate::words::{numbers, Outcome};

const CALLS: &str = include_str!("../../tests/hard/tree.calls");
const LINES: &str = include_str!("../../tests/hard/tree.lines");
const EXAMPLE_CALLS: &str = include_str!("../../tests/hard/rangetree.calls");
const EXAMPLE_LINES: &str = include_str!("../../tests/hard/rangetree.lines");

const BUGS: [&str; 9] = [
    "covered",
    "middle",
    "left-child",
    "leftover",
    "fresh",
    "thin",
    "wrap",
    "row",
    "steps",
];

fn right() -> Rules {
    Rules::default()
}

fn range(base: u32, limit: u32, offset: u32, rights: u32) -> Range {
    Range::from_words([base, limit, offset, rights])
}

/// Eight pages from 8 × place on, each with the frame of its own number.
fn eight(place: u32) -> Range {
    range(8 * place, 8 * place + 8, 0, 3)
}

fn insert_all(words: &mut [u32], places: impl IntoIterator<Item = u32>) {
    for place in places {
        assert_eq!(insert(words, eight(place), &right()), Ok((0, 0)));
    }
}

fn tree_of(places: impl IntoIterator<Item = u32>) -> Vec<u32> {
    let mut words = empty();
    insert_all(&mut words, places);
    words
}

fn node(words: &[u32], number: u32) -> &[u32] {
    &words[1 + NODE * number as usize..][..NODE]
}

fn node_mut(words: &mut [u32], number: u32) -> &mut [u32] {
    &mut words[1 + NODE * number as usize..][..NODE]
}

/// A node as the papers lay it out.
fn laid_out(ranges: &[u32], children: &[u32]) -> Vec<u32> {
    let mut node = vec![0; NODE];
    node[COUNT] = ranges.len() as u32;
    node[LEAF] = children.is_empty().into();
    for (at, &place) in ranges.iter().enumerate() {
        node[RANGES + 4 * at..][..4].copy_from_slice(&eight(place).to_words());
    }
    node[CHILDREN..][..children.len()].copy_from_slice(children);
    node
}

/// A tree of these nodes: its ranges by place, and its children.
fn built(root: u32, nodes: &[(u32, &[u32], &[u32])]) -> Vec<u32> {
    let mut words = vec![0; TREE];
    words[0] = root;
    for (number, ranges, children) in nodes {
        node_mut(&mut words, *number).copy_from_slice(&laid_out(ranges, children));
    }
    words
}

// The slow model.

/// What insertion answers beside these ranges.
fn inserted(held: &[Range], new: Range) -> Outcome {
    let spans = u64::from(new.base) + 8 <= u64::from(new.limit) && new.limit <= 1024;
    let wraps = 1u64 << 32;
    let frame = |page: u32| (u64::from(page) + u64::from(new.offset)) % wraps;
    let conditions = [
        (6, new.rights > 7),
        (17, new.rights == 2 || new.rights == 6),
        (8, !spans),
        (8, spans && (new.base..new.limit).any(|p| frame(p) > 4095)),
        (
            11,
            spans && (new.base..new.limit).any(|p| holder(held, p).is_some()),
        ),
    ];
    let refusal = conditions.into_iter().find(|(_, applies)| *applies);
    refusal.map_or(Ok((0, 0)), |(number, _)| Err(number))
}

fn holder(held: &[Range], page: u32) -> Option<&Range> {
    held.iter()
        .find(|range| range.base <= page && page < range.limit)
}

/// The number of the node that has the range with this BASE, by a look at all nodes.
fn node_with(words: &[u32], base: u32) -> u32 {
    let has = |number: &u32| {
        let node = node(words, *number);
        let ranges = node[RANGES..CHILDREN].chunks(4);
        let mut used = ranges.take(node[COUNT] as usize);
        used.any(|range| range[0] == base)
    };
    (0..NODES).find(has).unwrap()
}

/// Nodes from this one up to the root, both counted.
fn height(words: &[u32], number: u32) -> u32 {
    if words[0] == number {
        return 1;
    }
    let has_child = |above: &u32| {
        let node = node(words, *above);
        let inner = node[COUNT] > 0 && node[LEAF] == 0;
        inner && node[CHILDREN..][..=node[COUNT] as usize].contains(&number)
    };
    let above: Vec<u32> = (0..NODES).filter(has_child).collect();
    assert_eq!(above.len(), 1);
    1 + height(words, above[0])
}

fn found(words: &[u32], held: &[Range], page: u32) -> Outcome {
    let range = holder(held, page).ok_or(12u32)?;
    let frame = (u64::from(page) + u64::from(range.offset)) % (1 << 32);
    let nodes = height(words, node_with(words, range.base));
    Ok((4096 * range.rights + frame as u32, nodes))
}

/// The words are a lawful tree of just these ranges, and each page answers as a list
/// of them. The highest count of nodes on a path.
fn check(words: &[u32], held: &[Range]) -> u32 {
    let mut sorted = held.to_vec();
    sorted.sort_by_key(|range| range.base);
    assert_eq!(Tree::judged(words, &right()).unwrap().ranges(), sorted);
    let mut longest = 0;
    let all = lookups(words, &right());
    for page in 0..1024 {
        let outcome = found(words, held, page);
        assert_eq!(all[page as usize], outcome, "{page}");
        longest = longest.max(outcome.map_or(0, |(_, nodes)| nodes));
    }
    assert!(longest <= 4);
    longest
}

/// Some range, mostly one that fits somewhere.
fn some_range(random: &mut Random) -> Range {
    let base = match random.one_in(12) {
        true => random.below(1100) as u32,
        false => 8 * random.below(128) as u32,
    };
    let pages = match random.below(12) {
        0 => random.below(8),
        1 => random.below(60),
        _ => 8,
    };
    let frame = match random.one_in(12) {
        true => 4080 + random.below(20),
        false => random.below(4000),
    };
    let rights = random.pick(&[0, 1, 3, 4, 5, 7, 3, 3, 3, 3, 2, 6, 8]);
    let offset = (frame as u32).wrapping_sub(base);
    range(base, base + pages as u32, offset, rights)
}

/// One step, by the tree and by the model. The refusal, if there was one.
fn step(random: &mut Random, words: &mut Vec<u32>, held: &mut Vec<Range>, grow: u64) -> u32 {
    let before = words.clone();
    let (outcome, expected) = if random.below(10) < grow {
        let new = some_range(random);
        let expected = inserted(held, new);
        if expected.is_ok() {
            held.push(new);
        }
        (insert(words, new, &right()), expected)
    } else {
        let base = match held.is_empty() || random.one_in(8) {
            true => random.below(1030) as u32,
            false => held[random.below(held.len() as u64) as usize].base,
        };
        let at = held.iter().position(|range| range.base == base);
        let expected = match at {
            _ if base > 1023 => Err(8),
            None => Err(12),
            Some(_) => Ok((0, 0)),
        };
        if let Some(at) = at {
            held.swap_remove(at);
        }
        (remove(words, base, &right()), expected)
    };
    assert_eq!(outcome, expected);
    if outcome.is_err() {
        assert!(*words == before);
    }
    outcome.err().unwrap_or(0)
}

#[test]
fn trees_follow_the_list() {
    let mut random = Random(7);
    let mut reached = [0; 18];
    let mut heights = [0; 5];
    for _ in 0..4 {
        let mut words = empty();
        let mut held = Vec::new();
        for turn in 0..1200 {
            // Mostly insertions, then mostly removals.
            let grow = if turn % 600 < 360 { 8 } else { 2 };
            let answer = step(&mut random, &mut words, &mut held, grow);
            reached[answer as usize] += 1;
            heights[check(&words, &held) as usize] += 1;
        }
    }
    for answer in [0, 6, 17, 8, 11, 12] {
        assert!(reached[answer] > 20, "{reached:?}");
    }
    assert!(heights.iter().all(|&n| n > 0), "{heights:?}");
}

/// 0 to 127 in some order.
fn shuffled(random: &mut Random) -> Vec<u32> {
    let mut order: Vec<u32> = (0..128).collect();
    for at in (1..order.len()).rev() {
        order.swap(at, random.below(at as u64 + 1) as usize);
    }
    order
}

#[test]
fn a_whole_space_and_back() {
    let mut random = Random(8);
    let upwards: Vec<u32> = (0..128).collect();
    let downwards: Vec<u32> = (0..128).rev().collect();
    let mut orders = vec![upwards, downwards];
    for _ in 0..6 {
        orders.push(shuffled(&mut random));
    }
    for fill in &orders {
        for empty_by in &orders {
            let mut words = empty();
            let mut held = Vec::new();
            for &place in fill {
                assert_eq!(insert(&mut words, eight(place), &right()), Ok((0, 0)));
                held.push(eight(place));
                assert!(Tree::judged(&words, &right()).is_ok());
            }
            assert_eq!(check(&words, &held), 4);
            for &place in empty_by {
                assert_eq!(remove(&mut words, 8 * place, &right()), Ok((0, 0)));
                held.retain(|range| *range != eight(place));
                assert!(Tree::judged(&words, &right()).is_ok());
                if held.len() % 16 == 0 {
                    check(&words, &held);
                }
            }
            assert_eq!(words, empty());
        }
    }
}

#[test]
fn what_was_inserted_goes_again() {
    let mut random = Random(9);
    let mut words = empty();
    let mut held = Vec::new();
    for turn in 0..2000 {
        step(
            &mut random,
            &mut words,
            &mut held,
            if turn < 1200 { 8 } else { 2 },
        );
        let new = some_range(&mut random);
        let before = Tree::judged(&words, &right()).unwrap().ranges();
        let mut copy = words.clone();
        if insert(&mut copy, new, &right()).is_ok() {
            assert_eq!(remove(&mut copy, new.base, &right()), Ok((0, 0)));
            let after = Tree::judged(&copy, &right()).unwrap().ranges();
            assert_eq!(after, before);
        }
    }
}

// Which tree results, by hand.

#[test]
fn parted_nodes() {
    assert_eq!(tree_of([]), built(64, &[]));
    assert_eq!(tree_of([7]), built(0, &[(0, &[7], &[])]));
    assert_eq!(tree_of([7, 3, 9, 1]), built(0, &[(0, &[1, 3, 7, 9], &[])]));
    let five = built(
        2,
        &[(0, &[1, 3], &[]), (1, &[7, 9], &[]), (2, &[5], &[0, 1])],
    );
    assert_eq!(tree_of([7, 3, 9, 1, 5]), five);
    // The first leaf is parted: the new node stands between the two.
    let eight = built(
        2,
        &[
            (0, &[0, 1], &[]),
            (1, &[7, 9], &[]),
            (2, &[2, 5], &[0, 3, 1]),
            (3, &[3, 4], &[]),
        ],
    );
    assert_eq!(tree_of([7, 3, 9, 1, 5, 4, 2, 0]), eight);
    // The leaf takes node 6, the root's right half 7, the new root 8.
    let seventeen = built(
        8,
        &[
            (0, &[0, 1], &[]),
            (1, &[3, 4], &[]),
            (2, &[2, 5], &[0, 1, 3]),
            (3, &[6, 7], &[]),
            (4, &[9, 10], &[]),
            (5, &[12, 13], &[]),
            (6, &[15, 16], &[]),
            (7, &[11, 14], &[4, 5, 6]),
            (8, &[8], &[2, 7]),
        ],
    );
    assert_eq!(tree_of(0..17), seventeen);
}

fn after_removal(words: &[u32], place: u32) -> Vec<u32> {
    let mut words = words.to_vec();
    assert_eq!(remove(&mut words, 8 * place, &right()), Ok((0, 0)));
    words
}

/// A root, node 9, over leaves 5 and 3 with these ranges.
fn two_leaves(left: &[u32], between: u32, right: &[u32]) -> Vec<u32> {
    built(
        9,
        &[(5, left, &[]), (9, &[between], &[5, 3]), (3, right, &[])],
    )
}

#[test]
fn rows_of_leaves() {
    // A row of four: one leaf, which becomes the root.
    let four = built(5, &[(5, &[1, 3, 4, 5], &[])]);
    assert_eq!(after_removal(&two_leaves(&[1, 2], 3, &[4, 5]), 2), four);
    let four = built(5, &[(5, &[1, 2, 3, 4], &[])]);
    assert_eq!(after_removal(&two_leaves(&[1, 2], 3, &[4, 5]), 5), four);
    // The root's own range: the one before takes its place, and goes down.
    let four = built(5, &[(5, &[1, 2, 4, 5], &[])]);
    assert_eq!(after_removal(&two_leaves(&[1, 2], 3, &[4, 5]), 3), four);
    let five = two_leaves(&[1, 2], 3, &[5, 6]);
    assert_eq!(after_removal(&two_leaves(&[1, 2, 3], 4, &[5, 6]), 4), five);
    // Of five, two stay on each side; of six, three on the right.
    let five = two_leaves(&[1, 3], 4, &[5, 6]);
    assert_eq!(after_removal(&two_leaves(&[1, 2], 3, &[4, 5, 6]), 2), five);
    let six = two_leaves(&[1, 3], 4, &[5, 6, 7]);
    let lent = two_leaves(&[1, 2], 3, &[4, 5, 6, 7]);
    assert_eq!(after_removal(&lent, 2), six);
    let six = two_leaves(&[1, 2], 3, &[4, 5, 6]);
    let lent = two_leaves(&[1, 2, 3, 4], 5, &[6, 7]);
    assert_eq!(after_removal(&lent, 7), six);
}

#[test]
fn the_right_neighbour_comes_first() {
    // Both neighbours of the middle leaf have ranges to spare.
    let lent = built(
        4,
        &[
            (0, &[0, 1, 2, 3], &[]),
            (1, &[5, 6], &[]),
            (2, &[8, 9, 10], &[]),
            (4, &[4, 7], &[0, 1, 2]),
        ],
    );
    let after = built(
        4,
        &[
            (0, &[0, 1, 2, 3], &[]),
            (1, &[6, 7], &[]),
            (2, &[9, 10], &[]),
            (4, &[4, 8], &[0, 1, 2]),
        ],
    );
    assert_eq!(after_removal(&lent, 5), after);
    // The last leaf has none on its right.
    let lent = built(
        4,
        &[
            (0, &[0, 1], &[]),
            (1, &[3, 4, 5, 6], &[]),
            (2, &[8, 9], &[]),
            (4, &[2, 7], &[0, 1, 2]),
        ],
    );
    let shared = built(
        4,
        &[
            (0, &[0, 1], &[]),
            (1, &[3, 4], &[]),
            (2, &[6, 7, 8], &[]),
            (4, &[2, 5], &[0, 1, 2]),
        ],
    );
    assert_eq!(after_removal(&lent, 9), shared);
}

/// Three levels: the root over a left node with its leaves, and a right one.
fn three_levels(left: &[(u32, &[u32], &[u32])], root: u32, right: &[u32]) -> Vec<u32> {
    let leaves: [(u32, &[u32], &[u32]); 3] = [
        (20, &[60, 61], &[]),
        (21, &[63, 64], &[]),
        (22, &[66, 67], &[]),
    ];
    let more: [(u32, &[u32], &[u32]); 2] = [(23, &[69, 70], &[]), (24, &[72, 73], &[])];
    let children = &[20, 21, 22, 23, 24][..=right.len()];
    let mut nodes = left.to_vec();
    nodes.extend(leaves);
    nodes.extend(&more[..right.len() - 2]);
    let top = [root];
    nodes.push((31, right, children));
    nodes.push((40, &top, &[30, 31]));
    built(40, &nodes)
}

#[test]
fn rows_above_the_leaves() {
    let left: [(u32, &[u32], &[u32]); 4] = [
        (10, &[0, 1], &[]),
        (11, &[3, 4], &[]),
        (12, &[6, 7], &[]),
        (30, &[2, 5], &[10, 11, 12]),
    ];
    // Leaves 10 and 11 become one, then 30 and 31, and the root goes.
    let lent = three_levels(&left, 50, &[62, 65]);
    let after = built(
        30,
        &[
            (10, &[1, 2, 3, 4], &[]),
            (12, &[6, 7], &[]),
            (20, &[60, 61], &[]),
            (21, &[63, 64], &[]),
            (22, &[66, 67], &[]),
            (30, &[5, 50, 62, 65], &[10, 12, 20, 21, 22]),
        ],
    );
    assert_eq!(after_removal(&lent, 0), after);
    // A row of six: 62 goes up, and its left child's leaves stay.
    let lent = three_levels(&left, 50, &[62, 65, 68, 71]);
    let after = built(
        40,
        &[
            (10, &[1, 2, 3, 4], &[]),
            (12, &[6, 7], &[]),
            (20, &[60, 61], &[]),
            (21, &[63, 64], &[]),
            (22, &[66, 67], &[]),
            (23, &[69, 70], &[]),
            (24, &[72, 73], &[]),
            (30, &[5, 50], &[10, 12, 20]),
            (31, &[65, 68, 71], &[21, 22, 23, 24]),
            (40, &[62], &[30, 31]),
        ],
    );
    assert_eq!(after_removal(&lent, 0), after);
    // The root's range: 7 takes its place. Leaf 12 joins 11, node 30 shares with 31.
    let after = built(
        40,
        &[
            (10, &[0, 1], &[]),
            (11, &[3, 4, 5, 6], &[]),
            (20, &[60, 61], &[]),
            (21, &[63, 64], &[]),
            (22, &[66, 67], &[]),
            (23, &[69, 70], &[]),
            (24, &[72, 73], &[]),
            (30, &[2, 7], &[10, 11, 20]),
            (31, &[65, 68, 71], &[21, 22, 23, 24]),
            (40, &[62], &[30, 31]),
        ],
    );
    assert_eq!(after_removal(&lent, 50), after);
}

#[test]
fn a_freed_node_is_taken_again() {
    let words = after_removal(&tree_of(0..8), 0);
    // Leaf 1 is gone: 0 has 1 to 4, 3 has 6 and 7, the root is 2.
    let merged = built(
        2,
        &[
            (0, &[1, 2, 3, 4], &[]),
            (2, &[5], &[0, 3]),
            (3, &[6, 7], &[]),
        ],
    );
    assert_eq!(words, merged);
    let mut again = words.clone();
    insert_all(&mut again, [0]);
    let parted = built(
        2,
        &[
            (0, &[0, 1], &[]),
            (1, &[3, 4], &[]),
            (2, &[2, 5], &[0, 1, 3]),
            (3, &[6, 7], &[]),
        ],
    );
    assert_eq!(again, parted);
}

// Refusals.

#[test]
fn lengths() {
    for length in [0, 1, 1536, 1538, 4096] {
        let mut words = vec![9; length];
        assert_eq!(insert(&mut words, range(0, 0, 0, 9), &right()), Err(1));
        assert_eq!(remove(&mut words, 2000, &right()), Err(1));
        assert_eq!(lookup(&words, 2000, &right()), Err(1));
        assert_eq!(words, vec![9; length]);
    }
    assert_eq!(TREE, 1537);
}

#[test]
fn refusals_of_ranges() {
    let held = [range(500, 510, 0u32.wrapping_sub(500), 5)];
    let mut random = Random(3);
    let edges = [
        0, 1, 7, 8, 9, 491, 492, 493, 500, 502, 509, 510, 511, 1015, 1016, 1017, 1023, 1024, 1025,
    ];
    let edges: Vec<u32> = edges.into_iter().chain([1 << 31, u32::MAX]).collect();
    let mut reached = [0; 18];
    for &base in &edges {
        for &limit in &edges {
            for frame in [0, 1, u32::MAX, 4000, 4086, 4087, 4088, 4095, 4096, 1 << 31] {
                let rights = random.below(9) as u32;
                let new = range(base, limit, frame.wrapping_sub(base), rights);
                let mut words = empty();
                assert_eq!(insert(&mut words, held[0], &right()), Ok((0, 0)));
                let before = words.clone();
                let outcome = insert(&mut words, new, &right());
                assert_eq!(outcome, inserted(&held, new), "{new:?}");
                assert_eq!(outcome.is_err(), words == before);
                reached[outcome.err().unwrap_or(0) as usize] += 1;
            }
        }
    }
    for answer in [0, 6, 17, 8, 11] {
        assert!(reached[answer] > 10, "{reached:?}");
    }
}

#[test]
fn pages_and_bases() {
    let mut words = tree_of([0, 127]);
    for number in [1024, 1025, 1 << 16, u32::MAX] {
        assert_eq!(remove(&mut words, number, &right()), Err(8));
        assert_eq!(lookup(&words, number, &right()), Err(8));
    }
    for base in (1..1016).chain(1017..1024) {
        assert_eq!(remove(&mut words, base, &right()), Err(12));
    }
    for page in 8..1016 {
        assert_eq!(lookup(&words, page, &right()), Err(12));
    }
    assert_eq!(lookup(&words, 1023, &right()), Ok((13311, 1)));
    assert_eq!(words, tree_of([0, 127]));
}

/// Each call on this tree answers 2 and alters nothing, whatever else is wrong.
fn is_unlawful(words: &[u32]) -> bool {
    let mut lent = words.to_vec();
    let rules = right();
    let answers = [
        insert(&mut lent, range(1000, 1008, 0, 3), &rules),
        insert(&mut lent, range(9, 0, 0, 9), &rules),
        remove(&mut lent, 0, &rules),
        remove(&mut lent, 1024, &rules),
        lookup(&lent, 0, &rules),
        lookup(&lent, 1024, &rules),
    ];
    let all = lookups(&lent, &rules);
    lent == words && answers.iter().chain(&all).all(|answer| *answer == Err(2))
}

/// The tree of ranges 0 to 16 with one thing done to it.
fn damaged(damage: impl Fn(&mut [u32])) -> Vec<u32> {
    let mut words = tree_of(0..17);
    damage(&mut words);
    words
}

#[test]
fn unlawful_nodes() {
    assert!(!is_unlawful(&damaged(|_| {})));
    assert!(is_unlawful(&vec![0; TREE]));
    // Root 8 over 2 and 7; 2 over leaves 0, 1 and 3.
    let nodes: [(u32, usize, u32); 22] = [
        (8, COUNT, 0),
        (8, COUNT, 2),
        (8, COUNT, 5),
        (0, COUNT, 0),
        (0, COUNT, 1),
        (0, COUNT, 3),
        (0, COUNT, 5),
        (0, COUNT, u32::MAX),
        (0, LEAF, 0),
        (0, LEAF, 2),
        (2, LEAF, 1),
        (2, LEAF, 2),
        (0, LAST, 1),
        (2, LAST, 1),
        (0, CHILDREN, 9),
        (2, CHILDREN, 2),
        (2, CHILDREN, 8),
        (2, CHILDREN, 1),
        (2, CHILDREN, 9),
        (2, CHILDREN, 64),
        (2, CHILDREN, u32::MAX),
        (2, CHILDREN + 3, 9),
    ];
    for (number, place, word) in nodes {
        let words = damaged(|words| node_mut(words, number)[place] = word);
        assert!(is_unlawful(&words), "{number} {place} {word}");
    }
    for root in [0, 7, 9, 63, 64, 65, u32::MAX] {
        assert!(is_unlawful(&damaged(|words| words[0] = root)), "{root}");
    }
    // A word in any place that has none.
    for at in (0..TREE).filter(|&at| tree_of(0..17)[at] == 0) {
        let words = damaged(|words| words[at] = 77);
        let lawful_offset = at % NODE == 5 || at % NODE == 9;
        let in_use = Tree::judged(&words, &right()).is_ok();
        assert_eq!(in_use, !is_unlawful(&words));
        assert!(!in_use || lawful_offset, "{at}");
    }
}

#[test]
fn unlawful_forms() {
    // A leaf beside a node that is none.
    let uneven = built(
        9,
        &[
            (0, &[0, 1], &[]),
            (1, &[3, 4], &[]),
            (2, &[6, 7], &[]),
            (3, &[9, 10], &[]),
            (4, &[5, 8], &[1, 2, 3]),
            (9, &[2], &[0, 4]),
        ],
    );
    assert!(is_unlawful(&uneven));
    // One range below the root.
    assert!(is_unlawful(&two_leaves(&[1], 3, &[4, 5])));
    assert!(!is_unlawful(&two_leaves(&[1, 2], 3, &[4, 5])));
    // Two roots over the same leaves, and a node of its own.
    let mut two = two_leaves(&[1, 2], 3, &[4, 5]);
    node_mut(&mut two, 60).copy_from_slice(&laid_out(&[9], &[]));
    assert!(is_unlawful(&two));
    // Not ascending, within a node and between nodes; twice.
    assert!(is_unlawful(&two_leaves(&[2, 1], 3, &[4, 5])));
    assert!(is_unlawful(&two_leaves(&[1, 4], 3, &[2, 5])));
    assert!(is_unlawful(&two_leaves(&[1, 2], 5, &[3, 4])));
    assert!(is_unlawful(&two_leaves(&[1, 2], 2, &[3, 4])));
}

/// A full binary tree of five levels, with one range in each node: no rule on depth
/// is needed to refuse it.
#[test]
fn five_levels() {
    let mut words = vec![0; TREE];
    let mut places = 0..;
    fn put(words: &mut [u32], number: u32, places: &mut std::ops::RangeFrom<u32>) {
        let inner = number < 15;
        if inner {
            put(words, 2 * number + 1, places);
        }
        let place = places.next().unwrap();
        let children: &[u32] = if inner {
            &[2 * number + 1, 2 * number + 2]
        } else {
            &[]
        };
        node_mut(words, number).copy_from_slice(&laid_out(&[place], children));
        if inner {
            put(words, 2 * number + 2, places);
        }
    }
    put(&mut words, 0, &mut places);
    assert!(is_unlawful(&words));
}

#[test]
fn unlawful_ranges() {
    let lent = |second: Range| {
        let mut words = two_leaves(&[1, 2], 30, &[60, 61]);
        let at = 1 + NODE * 5 + RANGES + 4;
        words[at..at + 4].copy_from_slice(&second.to_words());
        words
    };
    for lawful in [
        range(16, 24, 0, 3),
        range(16, 240, 0, 0),
        range(232, 240, 3856, 7),
        range(100, 108, 0u32.wrapping_sub(100), 1),
    ] {
        assert!(!is_unlawful(&lent(lawful)), "{lawful:?}");
    }
    for unlawful in [
        range(16, 24, 0, 2),
        range(16, 24, 0, 6),
        range(16, 24, 0, 8),
        range(16, 23, 0, 3),
        range(16, 16, 0, 3),
        range(16, 8, 0, 3),
        range(15, 24, 0, 3),
        range(16, 241, 0, 3),
        range(232, 240, 3857, 7),
        range(100, 108, 0u32.wrapping_sub(101), 1),
        range(16, 1025, 0, 3),
        range(1016, 1024, 0, 3),
    ] {
        assert!(is_unlawful(&lent(unlawful)), "{unlawful:?}");
    }
    let last = |last: Range| {
        let mut words = two_leaves(&[1, 2], 30, &[60, 61]);
        let at = 1 + NODE * 3 + RANGES + 4;
        words[at..at + 4].copy_from_slice(&last.to_words());
        words
    };
    assert!(!is_unlawful(&last(range(1016, 1024, 3072, 3))));
    assert!(is_unlawful(&last(range(1017, 1025, 0, 3))));
    assert!(is_unlawful(&last(range(1016, 1024, 3073, 3))));
}

#[test]
fn ranges_may_adjoin_and_share_frames() {
    let mut words = empty();
    for place in 0..128 {
        let base = 8 * place;
        let same_frames = range(base, base + 8, 0u32.wrapping_sub(base), 1);
        assert_eq!(insert(&mut words, same_frames, &right()), Ok((0, 0)));
    }
    assert_eq!(lookup(&words, 1023, &right()).unwrap().0, 4096 + 7);
}

#[test]
fn damaged_words_alter_nothing() {
    let mut random = Random(4);
    let mut answers = [0; 18];
    for turn in 0..20_000 {
        let mut words = tree_of(0..1 + turn % 60);
        for _ in 0..1 + random.below(2) {
            let at = match random.one_in(2) {
                true => random.below(TREE as u64),
                false => random.below(300),
            };
            words[at as usize] ^= 1 << random.below(32);
        }
        let before = words.clone();
        let outcome = match random.below(3) {
            0 => insert(&mut words, some_range(&mut random), &right()),
            1 => remove(&mut words, 8 * random.below(130) as u32, &right()),
            _ => lookup(&words, random.below(1030) as u32, &right()),
        };
        answers[outcome.err().unwrap_or(0) as usize] += 1;
        if outcome.is_err() {
            assert!(words == before);
        }
    }
    assert!(answers[2] > 1000 && answers[0] > 40, "{answers:?}");
}

// Texts and the protocol.

fn made_by(lines: &str, rules: Rules) -> String {
    let mut printed = Vec::new();
    text::calls(lines.as_bytes(), &mut printed, rules).unwrap();
    String::from_utf8(printed).unwrap()
}

#[test]
fn stored_calls() {
    assert_eq!(made_by(CALLS, right()), LINES);
    assert_eq!(made_by(EXAMPLE_CALLS, right()), EXAMPLE_LINES);
    for name in NAMES {
        for answer in [0, 6, 17, 8, 11, 12] {
            let has = |line: &str| line.contains(&format!(" {name} {answer} "));
            let can = match name {
                "tree_insert" => answer != 12,
                _ => [0, 8, 12].contains(&answer),
            };
            assert_eq!(LINES.lines().any(has), can, "{name} {answer}");
        }
    }
}

#[test]
fn lines_of_text() {
    let failed = |lines: &str| {
        let made = text::calls(lines.as_bytes(), &mut Vec::new(), right());
        made.unwrap_err().to_string()
    };
    assert_eq!(
        failed("tree_insert 1 2 3"),
        "line 1: wrong number of arguments"
    );
    assert_eq!(failed("tree_remove"), "line 1: wrong number of arguments");
    assert_eq!(
        failed("tree_lookup 1 2"),
        "line 1: wrong number of arguments"
    );
    let no_word = "line 2: a word is no number of 32 bits";
    assert_eq!(failed("\ntree_lookup 4294967296"), no_word);
    assert_eq!(failed("\ntree_lookup -1"), no_word);
    assert_eq!(failed("tree_clear"), "line 1: no such call");
    for name in ["tree_insert 0 8 0 3", "tree_remove 0", "tree_lookup 0xf"] {
        let refused = text::encode(name.as_bytes(), &mut Vec::new()).unwrap_err();
        let word = name.split(' ').next().unwrap();
        let wanted = format!("line 1: {word} has no record kind");
        assert_eq!(refused.to_string(), wanted);
    }
    // Calls on the pool stand beside and know nothing of the tree.
    let beside = "tree_insert 0 8 0 3\nsetup 32\nopen 0\nmap 0 0 8 3\nunmap 0 0 8\ntree_lookup 7";
    assert!(made_by(beside, right()).ends_with("\n6 tree_lookup 0 12295 1\n"));
}

fn served(words: &[u32], rules: Rules) -> Option<Vec<u32>> {
    let bytes: Vec<u8> = words.iter().flat_map(|w| w.to_le_bytes()).collect();
    let mut output = Vec::new();
    state::trees(&mut &bytes[..], &mut output, &rules).ok()?;
    let words = output.chunks_exact(4);
    Some(
        words
            .map(|w| u32::from_le_bytes([w[0], w[1], w[2], w[3]]))
            .collect(),
    )
}

/// A call on lent words, as the protocol has it.
fn asked(kind: u32, tree: &[u32], args: [u32; 4]) -> Vec<u32> {
    let mut words = vec![kind, tree.len() as u32];
    words.extend(tree);
    words.extend(args);
    words
}

#[test]
fn protocol() {
    let three = tree_of([0, 1, 2]);
    let mut input = asked(1, &three, eight(3).to_words());
    input.extend(asked(2, &three, [8, 0, 0, 0]));
    input.extend(asked(3, &three, [8, 0, 0, 0]));
    input.extend(asked(3, &[5, 6], [8, 0, 0, 0]));
    input.extend(asked(4, &three, [0; 4]));
    let mut expected = Vec::new();
    let mut answer = |numbers: [u32; 3], tree: &[u32]| {
        expected.extend(numbers);
        expected.push(tree.len() as u32);
        expected.extend(tree);
    };
    answer([0, 0, 0], &tree_of(0..4));
    answer([0, 0, 0], &tree_of([0, 2]));
    answer([0, 12296, 1], &three);
    answer([1, 0, 0], &[5, 6]);
    for page in 0..1024 {
        expected.extend(numbers(lookup(&three, page, &right())));
    }
    assert_eq!(served(&input, right()), Some(expected));
    // Cut input and unknown kinds fail.
    assert_eq!(served(&input[..input.len() - 1], right()), None);
    for kind in [0, 5, u32::MAX] {
        assert_eq!(served(&asked(kind, &three, [0; 4]), right()), None);
    }
}

// Planted bugs.

fn with(bug: &str) -> Rules {
    Rules::with_bug(bug).unwrap()
}

#[test]
fn bugs_in_the_stored_calls() {
    // Which number a node has shows in words alone.
    let hidden = ["fresh"];
    for bug in BUGS {
        let differs = made_by(CALLS, with(bug)) != LINES;
        assert_eq!(differs, !hidden.contains(&bug), "{bug}");
    }
}

#[test]
fn bugs_by_hand() {
    let done = |lent: &[u32], call: Call, bug: &str| {
        let mut words = lent.to_vec();
        let outcome = call.perform(&mut words, &with(bug));
        (outcome, words)
    };
    let four = tree_of(0..4);
    let pair = two_leaves(&[1, 2], 3, &[4, 5]);
    assert_eq!(
        done(&four, Call::Lookup(8), "covered").0,
        Ok((4096 * 3 + 8, 1))
    );
    assert_eq!(
        done(&four, Call::Lookup(32), "covered").0,
        Ok((4096 * 3 + 32, 1))
    );
    let kept = built(
        2,
        &[(0, &[0, 1], &[]), (1, &[2, 3, 4], &[]), (2, &[2], &[0, 1])],
    );
    assert_eq!(done(&four, Call::Insert(eight(4)), "middle").1, kept);
    assert_eq!(done(&pair, Call::Lookup(8 * 4), "left-child").0, Err(12));
    assert_eq!(done(&pair, Call::Remove(8 * 4), "left-child").0, Err(12));
    let merged = done(&pair, Call::Remove(8), "leftover").1;
    assert_eq!(node(&merged, 3), laid_out(&[4, 5], &[]));
    assert_eq!(done(&empty(), Call::Insert(eight(0)), "fresh").1[0], 63);
    assert_eq!(
        done(&pair, Call::Remove(8), "thin").1,
        two_leaves(&[2], 3, &[4, 5])
    );
    let low = range(500, 508, 0u32.wrapping_sub(500), 3);
    assert_eq!(done(&empty(), Call::Insert(low), "wrap").0, Err(8));
    let six = two_leaves(&[1, 2], 3, &[4, 5, 6, 7]);
    assert_eq!(
        done(&six, Call::Remove(8), "row").1,
        two_leaves(&[2, 3, 4], 5, &[6, 7])
    );
    assert_eq!(
        done(&pair, Call::Lookup(8), "steps").0,
        Ok((4096 * 3 + 8, 1))
    );
}

/// No bug of the tree shows in a call on the pool, and no other bug in a tree.
#[test]
fn bugs_stay_where_they_are() {
    for bug in ["65", "limit", "six", "late", "nine", "ignored"] {
        assert_eq!(made_by(CALLS, with(bug)), LINES, "{bug}");
    }
    let calls = include_str!("../../tests/hard/preview.calls");
    for bug in BUGS {
        let lines = include_str!("../../tests/hard/preview.lines");
        assert_eq!(made_by(calls, with(bug)), lines, "{bug}");
    }
}
