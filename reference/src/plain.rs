//! The rules written down slowly, over plain tables, to test the calls with.

use std::collections::{BTreeMap, BTreeSet};

use crate::trace::*;
use crate::unit::{PageEntry, RangeEntry, Unit};
use crate::words::*;

/// The whole figure nearest to 10,000 × inside / mapped: of the two neighbours
/// that have it between them the one that is off by less, else the even one. They
/// are searched, so that nothing is divided by the mapped pages.
pub fn nearest(inside: u32, mapped: u32) -> u32 {
    let (mut low, mut high) = (0, 10_000);
    while high - low > 1 {
        let middle = (low + high) / 2;
        match middle * mapped <= 10_000 * inside {
            true => low = middle,
            false => high = middle,
        }
    }
    let off = |figure: u32| (figure * mapped).abs_diff(10_000 * inside);
    [low, high]
        .into_iter()
        .min_by_key(|&figure| (off(figure), figure % 2))
        .unwrap()
}

/// Whether rights are allowed, one by one: none, r, rw, x, rx, rwx.
pub fn allowed(rights: u32) -> bool {
    [0, 1, 3, 4, 5, 7].contains(&rights)
}

/// Longest runs of at least 8 pages in a space, counted by their definition from
/// the page words alone, range bits aside.
pub fn long_runs(pages: &[u32]) -> u32 {
    // Whether a page stands where a run that begins at `base` would have it.
    let fits = |base: usize, page: usize| {
        let (start, word) = (pages[base], pages[page]);
        word >= 65536
            && word % 4096 == start % 4096 + (page - base) as u32
            && word / 4096 % 8 == start / 4096 % 8
    };
    let run = |base: usize, limit: usize| (base..limit).all(|page| fits(base, page));
    let begins = |&base: &usize| {
        let limit = (base..pages.len()).find(|&page| !fits(base, page));
        let limit = limit.unwrap_or(pages.len());
        // Not longest where the page before belongs to it.
        limit - base >= 8 && (base == 0 || !run(base - 1, limit))
    };
    (0..pages.len()).filter(begins).count() as u32
}

/// What the calls have left: held pages with frame and rights.
#[derive(Clone, Default)]
pub struct Plain {
    pub size: u32,
    pub open: BTreeSet<u32>,
    pub held: BTreeMap<(u32, u32), (u32, u32)>,
    pub removals: u32,
    /// The last 64 records, by number.
    pub log: BTreeMap<u32, (u32, u32, u32)>,
}

/// A block that a map took, with what stood before it was taken.
pub struct Taken {
    pub order: u32,
    pub wished: Option<u32>,
    pub old: u32,
    pub start: u32,
    pub free: BTreeSet<u32>,
}

impl Taken {
    /// What became of the wish, by the name in the counts.
    pub fn case(&self, size: u32) -> &'static str {
        let Some(wished) = self.wished else {
            return "none";
        };
        let block = || wished..wished + (1 << self.order);
        let reasons = [
            ("no_multiple", wished % (1 << self.order) != 0),
            ("past", block().any(|f| f >= size)),
            ("first_held", !self.free.contains(&wished)),
            ("later_held", !block().all(|f| self.free.contains(&f))),
            ("met_same", self.old == wished),
            ("met_other", true),
        ];
        reasons.iter().find(|r| r.1).unwrap().0
    }
}

impl Plain {
    fn free(&self) -> BTreeSet<u32> {
        let held: BTreeSet<u32> = self.held.values().map(|&(frame, _)| frame).collect();
        (0..self.size).filter(|f| !held.contains(f)).collect()
    }

    /// Free blocks (start, order), by their definition.
    fn free_blocks(&self, free: &BTreeSet<u32>) -> Vec<(u32, u32)> {
        let mut blocks: Vec<(u32, u32)> = Vec::new();
        for order in (0..=10).rev() {
            for start in (0..4096).step_by(1 << order) {
                let whole = (start..start + (1 << order)).all(|f| free.contains(&f));
                let inside = blocks
                    .iter()
                    .any(|&(s, o)| s <= start && start < s + (1 << o));
                if whole && !inside {
                    blocks.push((start, order));
                }
            }
        }
        blocks
    }

    /// The old choice: order, and start, of a block for so many pages left.
    fn old_choice(&self, free: &BTreeSet<u32>, left: u32) -> Option<(u32, u32)> {
        let blocks = self.free_blocks(free);
        let i = (0..=10)
            .filter(|&i| 1 << i <= left && blocks.iter().any(|b| b.1 >= i))
            .max()?;
        let from = blocks.iter().filter(|b| b.1 >= i).map(|b| b.1).min()?;
        let start = blocks.iter().filter(|b| b.1 == from).map(|b| b.0).min()?;
        Some((i, start))
    }

    /// Whether a block of this order starts at the frame, lies in the pool and is
    /// wholly free.
    fn can_start(&self, free: &BTreeSet<u32>, order: u32, frame: u32) -> bool {
        let starts = (0..4096).step_by(1 << order).any(|start| start == frame);
        starts && (frame..frame + (1 << order)).all(|f| f < self.size && free.contains(&f))
    }

    /// Blocks for n pages, by the rule, from the free frames and the wish of the
    /// first block alone.
    pub fn blocks_for(&self, n: u32, mut wished: Option<u32>) -> Option<Vec<Taken>> {
        let mut free = self.free();
        if (free.len() as u32) < n {
            return None;
        }
        let mut left = n;
        let mut taken = Vec::new();
        while left > 0 {
            let (order, old) = self.old_choice(&free, left)?;
            let start = match wished {
                Some(frame) if self.can_start(&free, order, frame) => frame,
                _ => old,
            };
            taken.push(Taken {
                order,
                wished,
                old,
                start,
                free: free.clone(),
            });
            for f in start..start + (1 << order) {
                free.remove(&f);
            }
            left -= 1 << order;
            wished = Some(start + (1 << order));
        }
        Some(taken)
    }

    /// The frame that a map's first block wishes: the one after that of the page just
    /// before the span.
    fn wished(&self, space: u32, first: u32) -> Option<u32> {
        let held = |page| self.held.get(&(space, page));
        match first {
            0 => None,
            _ => held(first - 1).map(|&(frame, _)| frame + 1),
        }
    }

    fn append(&mut self, record: (u32, u32, u32)) {
        self.removals += 1;
        self.log.insert(self.removals, record);
        if self.removals > 64 {
            self.log.remove(&(self.removals - 64));
        }
    }

    pub fn set_up(&mut self, size: u32) {
        *self = Plain {
            size,
            ..Plain::default()
        };
    }

    pub fn close(&mut self, space: u32) -> u32 {
        let before = self.held.len();
        self.held.retain(|&(s, _), _| s != space);
        self.open.remove(&space);
        self.append((space, 0, 1024));
        (before - self.held.len()) as u32
    }

    /// The blocks taken; none if frames are lacking.
    pub fn map(&mut self, space: u32, first: u32, count: u32, rights: u32) -> Option<Vec<Taken>> {
        let blocks = self.blocks_for(count, self.wished(space, first))?;
        let frames = blocks
            .iter()
            .flat_map(|t| t.start..t.start + (1 << t.order));
        for (page, frame) in (first..).zip(frames.collect::<Vec<u32>>()) {
            self.held.insert((space, page), (frame, rights));
        }
        Some(blocks)
    }

    pub fn unmap(&mut self, space: u32, first: u32, count: u32) {
        for page in first..first + count {
            self.held.remove(&(space, page));
        }
        self.append((space, first, count));
    }

    pub fn protect(&mut self, space: u32, first: u32, count: u32, rights: u32) -> u32 {
        let mut changed = 0;
        for page in first..first + count {
            let held = self.held.get_mut(&(space, page)).unwrap();
            changed += (held.1 != rights) as u32;
            held.1 = rights;
        }
        self.append((space, first, count));
        changed
    }

    /// Ranges of a space, as (BASE, LIMIT, frame of BASE, rights).
    fn ranges(&self, space: u32) -> Vec<(u32, u32, u32, u32)> {
        let joined = |page: u32| -> bool {
            // Whether a page belongs to the run of the page before.
            let Some(before) = page.checked_sub(1).and_then(|p| self.held.get(&(space, p))) else {
                return false;
            };
            self.held.get(&(space, page)) == Some(&(before.0 + 1, before.1))
        };
        let mut all = Vec::new();
        for base in 0..1024 {
            let Some(&(frame, rights)) = self.held.get(&(space, base)) else {
                continue;
            };
            if joined(base) {
                continue;
            }
            let limit = (base + 1..1024).find(|&p| !joined(p)).unwrap_or(1024);
            if limit - base >= 8 {
                all.push((base, limit, frame, rights));
            }
        }
        all
    }

    pub fn coverage(&self, space: u32) -> u32 {
        let mapped = self.held.keys().filter(|k| k.0 == space).count() as u32;
        let inside: u32 = self.ranges(space).iter().map(|r| r.1 - r.0).sum();
        nearest(inside, mapped)
    }

    /// The words of the four buffers.
    pub fn words(&self) -> Buffers {
        let mut b = Buffers::zeroed();
        b.control[0] = self.size;
        b.control[1] = self.removals;
        b.control[2] = self.open.iter().map(|s| 1 << s).sum();
        for (m, &(space, first, count)) in &self.log {
            let at = 3 + 3 * (*m as usize % 64);
            b.control[at..at + 3].copy_from_slice(&[space, first, count]);
        }
        b.frames.fill(65535);
        b.frames[..self.size as usize].fill(8192);
        for (start, order) in self.free_blocks(&self.free()) {
            b.frames[start as usize] = 16384 + order;
        }
        for (&(space, page), &(frame, rights)) in &self.held {
            b.frames[frame as usize] = 1 + 1024 * space + page;
            b.pages[(1024 * space + page) as usize] = 65536 + 4096 * rights + frame;
        }
        for space in 0..4 {
            for (i, (base, limit, frame, rights)) in self.ranges(space).into_iter().enumerate() {
                let at = 512 * space as usize + 4 * i;
                let offset = (frame as i64 - base as i64).rem_euclid(1 << 32) as u32;
                b.ranges[at..at + 4].copy_from_slice(&[base, limit, offset, rights]);
                for page in base..limit {
                    b.pages[(1024 * space + page) as usize] += 32768;
                }
            }
        }
        b
    }

    /// Reads the words; none if they are not the words of any plain state.
    pub fn read(b: &Buffers) -> Option<Plain> {
        let mut plain = Plain::default();
        plain.size = b.control[0];
        if plain.size == 0 || plain.size > 4096 || b.control[2] > 15 {
            return None;
        }
        plain.removals = b.control[1];
        plain.open = (0..4).filter(|s| b.control[2] & (1 << s) != 0).collect();
        let last = plain.removals as u64;
        for m in last.saturating_sub(63).max(1)..=last {
            let at = 3 + 3 * (m % 64) as usize;
            let record = (b.control[at], b.control[at + 1], b.control[at + 2]);
            let end = record.1 as u64 + record.2 as u64;
            if record.0 > 3 || record.2 == 0 || end > 1024 {
                return None;
            }
            plain.log.insert(m as u32, record);
        }
        let mut frames = BTreeSet::new();
        for (i, &word) in b.pages.iter().enumerate() {
            let (space, page) = (i as u32 / 1024, i as u32 % 1024);
            if word == 0 {
                continue;
            }
            if !(65536..131072).contains(&word) || !plain.open.contains(&space) {
                return None;
            }
            let (frame, rights) = (word % 4096, word / 4096 % 8);
            if !allowed(rights) || frame >= plain.size || !frames.insert(frame) {
                return None;
            }
            plain.held.insert((space, page), (frame, rights));
        }
        (plain.words() == *b).then_some(plain)
    }
}

/// The refusals of a record's call that do not take a look at the unit, in the
/// order in which they are judged: 17 stands between 6 and 7. The first is the
/// answer.
pub fn refusals(plain: &Plain, call: &Call) -> Vec<u32> {
    let [a0, a1, a2, a3] = call.args.map(u32::from);
    if call.kind == TRANSLATE && a0 > 1 {
        return vec![16];
    }
    if call.kind == SETUP {
        let wrong = a0 == 0 || a0 > 4096;
        return wrong.then_some(4).into_iter().collect();
    }
    let translates = call.kind == TRANSLATE;
    let spans = [MAP, UNMAP, PROTECT].contains(&call.kind);
    let gives_rights = [MAP, PROTECT].contains(&call.kind);
    let space = if translates { a1 } else { a0 };
    let held = |page: u32| plain.held.contains_key(&(space, page));
    let open = plain.open.contains(&space);
    let lacking = match call.kind {
        UNMAP | PROTECT => (a1..a1 + a2).any(|p| !held(p)),
        COVERAGE => !(0..1024).any(held),
        _ => false,
    };
    let free = plain.free().len() as u32;
    let all = [
        (2, plain.size == 0),
        (5, space > 3),
        (6, gives_rights && a3 > 7),
        (17, gives_rights && [2, 6].contains(&a3)),
        (7, translates && ![1, 2, 4].contains(&a3)),
        (8, spans && (a2 == 0 || a1 + a2 > 1024)),
        (8, translates && a2 > 1023),
        (9, call.kind == OPEN && open),
        (10, call.kind != OPEN && !open),
        (11, call.kind == MAP && (a1..a1 + a2).any(held)),
        (12, lacking),
        (14, call.kind == MAP && free < a2),
    ];
    all.iter().filter(|r| r.1).map(|r| r.0).collect()
}

/// A unit as maps from places to entries.
#[derive(Clone, Default)]
pub struct PlainUnit {
    /// Space, page, frame, rights.
    pages: BTreeMap<u32, (u32, u32, u32, u32)>,
    /// Space, pages with their frames, rights.
    ranges: BTreeMap<u32, (u32, BTreeMap<u32, u32>, u32)>,
    last: Option<u32>,
    next: u32,
    seen: u32,
}

impl PlainUnit {
    fn caught_up(&self, plain: &Plain) -> PlainUnit {
        let mut unit = self.clone();
        if plain.removals - self.seen > 64 {
            unit = PlainUnit::default();
        } else {
            for m in self.seen + 1..=plain.removals {
                let (space, first, count) = plain.log[&m];
                let named = |s: u32, p: u32| s == space && p >= first && p - first < count;
                unit.pages.retain(|_, e| !named(e.0, e.1));
                unit.ranges
                    .retain(|_, e| !e.1.keys().any(|&p| named(e.0, p)));
                unit.last = unit.last.filter(|l| unit.ranges.contains_key(l));
            }
        }
        unit.seen = plain.removals;
        unit
    }

    /// A request that is well-formed, of an open space.
    pub fn translate(
        &mut self,
        plain: &Plain,
        space: u32,
        page: u32,
        access: u32,
    ) -> Result<(u32, u32), u32> {
        let mut unit = self.caught_up(plain);
        let by_page = unit.pages.values().find(|e| (e.0, e.1) == (space, page));
        let by_range = unit.last.into_iter().chain(0..32).find(|l| {
            let held = unit.ranges.get(l);
            held.is_some_and(|e| e.0 == space && e.1.contains_key(&page))
        });
        let (frame, rights, way) = if let Some(e) = by_page {
            (e.2, e.3, 1)
        } else if let Some(place) = by_range {
            let e = &unit.ranges[&place];
            unit.last = Some(place);
            (e.1[&page], e.2, 2)
        } else {
            let held = plain.held.get(&(space, page)).ok_or(12u32)?;
            let ranges = plain.ranges(space);
            let around = ranges.iter().find(|r| r.0 <= page && page < r.1);
            if let Some(&(base, limit, first, rights)) = around {
                let frames = (base..limit).zip(first..).collect();
                unit.ranges.insert(unit.next, (space, frames, rights));
                unit.last = Some(unit.next);
                unit.next = (unit.next + 1) % 32;
            }
            (held.0, held.1, 3)
        };
        if rights & access == 0 {
            return Err(13);
        }
        unit.pages.insert(page % 64, (space, page, frame, rights));
        *self = unit;
        Ok((frame, way))
    }

    pub fn words(&self) -> Unit {
        let mut unit = Unit::fresh();
        for (&place, &(space, page, frame, rights)) in &self.pages {
            unit.pages[place as usize] = PageEntry {
                valid: 1,
                space,
                page,
                frame,
                rights,
            };
        }
        for (&place, (space, frames, rights)) in &self.ranges {
            let (&base, &frame) = frames.first_key_value().unwrap();
            unit.ranges[place as usize] = RangeEntry {
                valid: 1,
                space: *space,
                base,
                limit: base + frames.len() as u32,
                offset: (frame as i64 - base as i64) as u32,
                rights: *rights,
            };
        }
        unit.last = self.last.unwrap_or(32);
        unit.next = self.next;
        unit.seen = self.seen;
        unit
    }
}

/// Whether a unit keeps its layout, page by page.
pub fn unit_kept(unit: &Unit) -> bool {
    for (i, e) in unit.pages.iter().enumerate() {
        let rest = [e.space, e.page, e.frame, e.rights];
        let right = match e.valid {
            0 => rest == [0; 4],
            1 => {
                e.space < 4
                    && e.page < 1024
                    && e.frame < 4096
                    && allowed(e.rights)
                    && e.page % 64 == i as u32
            }
            _ => false,
        };
        if !right {
            return false;
        }
    }
    for e in &unit.ranges {
        let rest = [e.space, e.base, e.limit, e.offset, e.rights];
        let right = match e.valid {
            0 => rest == [0; 5],
            1 => {
                e.space < 4
                    && allowed(e.rights)
                    && e.base < e.limit
                    && e.limit <= 1024
                    && (e.base..e.limit).all(|p| (p as u64 + e.offset as u64) % (1 << 32) < 4096)
            }
            _ => false,
        };
        if !right {
            return false;
        }
    }
    let last = unit.last == 32 || unit.last < 32 && unit.ranges[unit.last as usize].valid == 1;
    last && unit.next < 32
}
