//! The buddy pool over the frame words.

use std::ops::Range;

use crate::unit::Rules;
use crate::words::*;

/// Order of the free block that starts at `at` in a free run ending before
/// `end`: aligned, inside the run, at most order 10.
fn order_at(at: usize, end: usize) -> u32 {
    TOP_ORDER.min(at.trailing_zeros()).min((end - at).ilog2())
}

/// Number of free frames, if the words are lawful for a pool of this size.
pub fn judge(frames: &[u32], size: usize) -> Option<u32> {
    if !all_are(&frames[size..], OUTSIDE) {
        return None;
    }
    let frames = &frames[..size];
    let mut free = 0;
    let mut at = 0;
    while at < size {
        if is_held(frames[at]) {
            at += 1;
            continue;
        }
        let run = frames[at..].iter().take_while(|&&w| is_free(w)).count();
        if run == 0 {
            return None;
        }
        free += run as u32;
        // A free run falls apart into its largest aligned blocks.
        let end = at + run;
        while at < end {
            let order = order_at(at, end);
            let block = &frames[at..at + (1 << order)];
            if block[0] != HEAD + order || !all_are(&block[1..], FREE) {
                return None;
            }
            at += 1 << order;
        }
    }
    Some(free)
}

/// All frames of the pool free.
pub fn set_up(frames: &mut [u32], size: usize) {
    frames[..size].fill(FREE);
    frames[size..].fill(OUTSIDE);
    let mut at = 0;
    while at < size {
        let order = order_at(at, size);
        frames[at] = HEAD + order;
        at += 1 << order;
    }
}

/// Starts of the free blocks, a bit set for each order.
struct FreeLists {
    starts: [[u64; 64]; 11],
    /// Blocks in each list.
    blocks: [u32; 11],
}

impl FreeLists {
    fn read(frames: &[u32], size: usize) -> FreeLists {
        let mut lists = FreeLists {
            starts: [[0; 64]; 11],
            blocks: [0; 11],
        };
        let mut at = 0;
        while at < size {
            if frames[at] >= HEAD {
                let order = frames[at] - HEAD;
                lists.insert(order, at);
                at += 1 << order;
            } else {
                at += 1;
            }
        }
        lists
    }

    fn has(&self, order: u32, start: usize) -> bool {
        self.starts[order as usize][start / 64] >> (start % 64) & 1 == 1
    }

    fn insert(&mut self, order: u32, start: usize) {
        self.starts[order as usize][start / 64] |= 1 << (start % 64);
        self.blocks[order as usize] += 1;
    }

    fn remove(&mut self, order: u32, start: usize) {
        self.starts[order as usize][start / 64] &= !(1 << (start % 64));
        self.blocks[order as usize] -= 1;
    }

    /// The lowest start of an order that has a free block.
    fn lowest(&self, order: u32) -> usize {
        let row = &self.starts[order as usize];
        let at = row.iter().position(|&bits| bits != 0).unwrap();
        64 * at + row[at].trailing_zeros() as usize
    }

    /// The smallest order from `order` up that has a free block.
    fn serving(&self, order: u32) -> Option<u32> {
        (order..=TOP_ORDER).find(|&k| self.blocks[k as usize] > 0)
    }

    /// The free block that a frame lies in: order and start.
    fn around(&self, frame: usize) -> Option<(u32, usize)> {
        (0..=TOP_ORDER)
            .map(|k| (k, frame >> k << k))
            .find(|&(k, start)| self.has(k, start))
    }

    /// The first frame from `at` on, and below `end`, that is not free.
    fn not_free(&self, mut at: usize, end: usize) -> Option<usize> {
        while at < end {
            match self.around(at) {
                Some((order, start)) => at = start + (1 << order),
                None => return Some(at),
            }
        }
        None
    }

    /// Takes the frames out of the free blocks that they lie in.
    fn take_out(&mut self, frames: &mut [u32], span: &Range<usize>) {
        let mut at = span.start;
        while at < span.end {
            let Some((order, start)) = self.around(at) else {
                at += 1;
                continue;
            };
            self.remove(order, start);
            self.put_back(frames, order, start, span);
            at = start + (1 << order);
        }
    }

    /// Puts back what of a block lies outside the span, in halves of halves.
    fn put_back(&mut self, frames: &mut [u32], order: u32, start: usize, span: &Range<usize>) {
        let end = start + (1 << order);
        if end <= span.start || span.end <= start {
            self.insert(order, start);
            frames[start] = HEAD + order;
        } else if start < span.start || span.end < end {
            let half = order - 1;
            self.put_back(frames, half, start, span);
            self.put_back(frames, half, start + (1 << half), span);
        }
    }
}

/// What became of a block's wished frame.
#[derive(Clone, Copy, PartialEq, Eq, Debug)]
pub enum Wish {
    /// There was none.
    None,
    /// Met, where the old choice would have gone elsewhere.
    MetOther,
    /// Met, where the old choice would have gone too.
    MetSame,
    // Not met, by the first reason of these.
    NoMultiple,
    Past,
    FirstHeld,
    LaterHeld,
}

/// Their names in counts.
pub const WISHES: [&str; 7] = [
    "none",
    "met_other",
    "met_same",
    "no_multiple",
    "past",
    "first_held",
    "later_held",
];

/// A block taken.
#[derive(Clone, Copy, PartialEq, Eq, Debug)]
pub struct Block {
    pub start: u32,
    pub order: u32,
    pub wish: Wish,
}

/// What becomes of a wished frame at an order for which the old choice starts at
/// `old`.
fn judge_wish(lists: &FreeLists, size: usize, at: usize, order: u32, old: usize) -> Wish {
    let end = at + (1 << order);
    if at % (1 << order) != 0 {
        return Wish::NoMultiple;
    }
    if end > size {
        return Wish::Past;
    }
    match lists.not_free(at, end) {
        Some(frame) if frame == at => Wish::FirstHeld,
        Some(_) => Wish::LaterHeld,
        None if at == old => Wish::MetSame,
        None => Wish::MetOther,
    }
}

/// Whether a block is taken at the wished frame, planted bugs included.
fn takes(lists: &FreeLists, size: usize, at: usize, order: u32, wish: Wish, rules: &Rules) -> bool {
    let end = at + (1 << order);
    match wish {
        Wish::MetOther | Wish::MetSame => true,
        Wish::NoMultiple => rules.unaligned && end <= size && lists.not_free(at, end).is_none(),
        // The words end at 4,096.
        Wish::Past => rules.past && end <= FRAMES && lists.not_free(at, size).is_none(),
        Wish::LaterHeld => rules.one_free,
        Wish::FirstHeld | Wish::None => false,
    }
}

/// Blocks for n pages, ascending by page, the first at the wished frame if that can
/// be, each other one after the block before. At least n frames are free. The free
/// words of split blocks are written; those of the blocks taken are left to the
/// caller.
pub fn take(
    frames: &mut [u32],
    size: usize,
    n: u32,
    wished: Option<u32>,
    rules: &Rules,
) -> Vec<Block> {
    let mut lists = FreeLists::read(frames, size);
    let mut taken = Vec::new();
    let mut left = n;
    let mut wished = wished.map(|frame| frame as usize);
    while left > 0 {
        let fits = TOP_ORDER.min(left.ilog2());
        let (mut order, from) = (0..=fits)
            .rev()
            .find_map(|i| lists.serving(i).map(|from| (i, from)))
            .unwrap();
        // The old choice keeps the lower half, so it starts where the free block does.
        let mut start = lists.lowest(from);
        let mut wish = Wish::None;
        if let Some(at) = wished.filter(|_| !rules.ignored) {
            let fate = |k: u32| judge_wish(&lists, size, at, k, start);
            wish = fate(order);
            let least = if rules.smaller { 0 } else { order };
            let met = (least..=order)
                .rev()
                .find(|&k| takes(&lists, size, at, k, fate(k), rules));
            if let Some(k) = met {
                (start, order) = (at, k);
            }
        }
        let end = start + (1 << order);
        lists.take_out(frames, &(start..end));
        taken.push(Block {
            start: start as u32,
            order,
            wish,
        });
        left -= 1 << order;
        wished = (!rules.first_only).then_some(end);
    }
    taken
}

/// Frees one held frame, merging with free buddies.
pub fn free(frames: &mut [u32], frame: u32) {
    let mut start = frame as usize;
    let mut order = 0;
    while order < TOP_ORDER {
        let buddy = start ^ (1 << order);
        if frames[buddy] != HEAD + order {
            break;
        }
        frames[start.max(buddy)] = FREE;
        start = start.min(buddy);
        order += 1;
    }
    frames[start] = HEAD + order;
}
