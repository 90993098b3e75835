//! Translation units: page and range TLB, catching up with the removal log.

use crate::tables;
use crate::words::*;

pub const PAGE_ENTRIES: usize = 64;
pub const RANGE_ENTRIES: usize = 32;
/// Last used: none.
pub const NONE: u32 = 32;
/// Words of a unit laid out in a row.
pub const UNIT_WORDS: usize = 5 * PAGE_ENTRIES + 6 * RANGE_ENTRIES + 3;

#[derive(Clone, Copy, Default, PartialEq, Eq, Debug)]
pub struct PageEntry {
    pub valid: u32,
    pub space: u32,
    pub page: u32,
    pub frame: u32,
    pub rights: u32,
}

#[derive(Clone, Copy, Default, PartialEq, Eq, Debug)]
pub struct RangeEntry {
    pub valid: u32,
    pub space: u32,
    pub base: u32,
    pub limit: u32,
    pub offset: u32,
    pub rights: u32,
}

#[derive(Clone, Copy, PartialEq, Eq, Debug)]
pub struct Unit {
    pub pages: [PageEntry; PAGE_ENTRIES],
    pub ranges: [RangeEntry; RANGE_ENTRIES],
    pub last: u32,
    pub next: u32,
    pub seen: u32,
}

/// How map, protect, translate, coverage, preview, the conversions and the calls on
/// a tree go; the default is right, the rest are planted bugs.
#[derive(Clone, Copy, PartialEq, Eq, Debug)]
pub struct Rules {
    /// The most unseen records that are applied singly.
    pub singly: u32,
    /// LIMIT counts as covered in way 2.
    pub limit_covered: bool,
    /// A refused translation keeps its catching up.
    pub keep: bool,
    /// An exact half of coverage always goes up.
    pub halves_up: bool,
    /// A preview counts the ranges as they are before the map.
    pub ranges_before: bool,
    /// A unit's range entry may have rights 6.
    pub six_in_ranges: bool,
    /// Refusal 17 is judged after 8.
    pub reserved_late: bool,
    /// A made Sv39 entry is not dirty.
    pub clean: bool,
    /// The range bit of an Sv39 entry is bit 9, and bit 8 a further one.
    pub range_at_nine: bool,
    /// Bits 54 to 63 of an Sv39 entry are let pass.
    pub further_passes: bool,
    /// Frame 4,096 of an Sv39 entry is let pass.
    pub frame_above: bool,
    /// No block of a map has a wished frame.
    pub ignored: bool,
    /// A wish is met at a frame that is no multiple of the block's size.
    pub unaligned: bool,
    /// A wish is met whose block runs past F, up to the end of the frame words.
    pub past: bool,
    /// A wish is met where the first frame of its block is free, whatever the others.
    pub one_free: bool,
    /// A wish that is not met at the chosen order is tried at smaller ones.
    pub smaller: bool,
    /// Only a call's first block has a wish.
    pub first_only: bool,
    /// The last page of the space before is just before page 0.
    pub across: bool,
    /// The page before counts only if it has the rights asked.
    pub same_rights: bool,
    /// LIMIT counts as covered in a lookup of a tree.
    pub tree_limit_covered: bool,
    /// The middle range of a parted node goes up and stays in the new node too.
    pub middle_stays: bool,
    /// The child left of a range is taken for the one right of it.
    pub left_child: bool,
    /// A node freed by a merge keeps its words.
    pub leftover: bool,
    /// A node newly taken is the one of the highest unused number.
    pub from_the_top: bool,
    /// Removal leaves a node below the root with one range.
    pub thin: bool,
    /// A page plus OFFSET goes no higher than the highest word, and does not wrap.
    pub stops_at_the_top: bool,
    /// Two nodes that share their ranges get as many each as they can.
    pub row_halved: bool,
    /// A lookup counts the steps between nodes, not the nodes.
    pub steps_counted: bool,
}

impl Default for Rules {
    fn default() -> Rules {
        Rules {
            singly: LOG,
            limit_covered: false,
            keep: false,
            halves_up: false,
            ranges_before: false,
            six_in_ranges: false,
            reserved_late: false,
            clean: false,
            range_at_nine: false,
            further_passes: false,
            frame_above: false,
            ignored: false,
            unaligned: false,
            past: false,
            one_free: false,
            smaller: false,
            first_only: false,
            across: false,
            same_rights: false,
            tree_limit_covered: false,
            middle_stays: false,
            left_child: false,
            leftover: false,
            from_the_top: false,
            thin: false,
            stops_at_the_top: false,
            row_halved: false,
            steps_counted: false,
        }
    }
}

impl Rules {
    /// The rules with a planted bug, by its name.
    pub fn with_bug(name: &str) -> Option<Rules> {
        let mut rules = Rules::default();
        match name {
            "" => {}
            "65" => rules.singly = LOG + 1,
            "limit" => rules.limit_covered = true,
            "keep" => rules.keep = true,
            "half" => rules.halves_up = true,
            "before" => rules.ranges_before = true,
            "six" => rules.six_in_ranges = true,
            "late" => rules.reserved_late = true,
            "clean" => rules.clean = true,
            "nine" => rules.range_at_nine = true,
            "further" => rules.further_passes = true,
            "above" => rules.frame_above = true,
            "ignored" => rules.ignored = true,
            "unaligned" => rules.unaligned = true,
            "past" => rules.past = true,
            "one-free" => rules.one_free = true,
            "smaller" => rules.smaller = true,
            "first-only" => rules.first_only = true,
            "across" => rules.across = true,
            "same-rights" => rules.same_rights = true,
            "covered" => rules.tree_limit_covered = true,
            "middle" => rules.middle_stays = true,
            "left-child" => rules.left_child = true,
            "leftover" => rules.leftover = true,
            "fresh" => rules.from_the_top = true,
            "thin" => rules.thin = true,
            "wrap" => rules.stops_at_the_top = true,
            "row" => rules.row_halved = true,
            "steps" => rules.steps_counted = true,
            _ => return None,
        }
        Some(rules)
    }
}

impl PageEntry {
    fn sound(&self, place: usize) -> bool {
        if self.valid == 0 {
            return *self == PageEntry::default();
        }
        self.valid == 1
            && self.space <= 3
            && self.page <= 1023
            && self.frame < 4096
            && rights_allowed(self.rights)
            && self.page as usize % PAGE_ENTRIES == place
    }
}

impl RangeEntry {
    fn rights_sound(&self, rules: &Rules) -> bool {
        rights_allowed(self.rights) || rules.six_in_ranges && self.rights == 6
    }

    fn sound(&self, rules: &Rules) -> bool {
        if self.valid == 0 {
            return *self == RangeEntry::default();
        }
        if self.valid != 1
            || self.space > 3
            || !self.rights_sound(rules)
            || self.limit > 1024
            || self.base >= self.limit
        {
            return false;
        }
        let first = self.base.wrapping_add(self.offset);
        first < 4096 && first + (self.limit - self.base) <= 4096
    }
}

impl Unit {
    pub fn fresh() -> Unit {
        Unit {
            pages: [PageEntry::default(); PAGE_ENTRIES],
            ranges: [RangeEntry::default(); RANGE_ENTRIES],
            last: NONE,
            next: 0,
            seen: 0,
        }
    }

    pub fn from_words(words: &[u32; UNIT_WORDS]) -> Unit {
        let mut unit = Unit::fresh();
        let (pages, rest) = words.split_at(5 * PAGE_ENTRIES);
        let (ranges, rest) = rest.split_at(6 * RANGE_ENTRIES);
        for (entry, w) in unit.pages.iter_mut().zip(pages.chunks_exact(5)) {
            *entry = PageEntry {
                valid: w[0],
                space: w[1],
                page: w[2],
                frame: w[3],
                rights: w[4],
            };
        }
        for (entry, w) in unit.ranges.iter_mut().zip(ranges.chunks_exact(6)) {
            *entry = RangeEntry {
                valid: w[0],
                space: w[1],
                base: w[2],
                limit: w[3],
                offset: w[4],
                rights: w[5],
            };
        }
        unit.last = rest[0];
        unit.next = rest[1];
        unit.seen = rest[2];
        unit
    }

    pub fn to_words(self) -> Vec<u32> {
        let mut words = Vec::with_capacity(UNIT_WORDS);
        for e in &self.pages {
            words.extend([e.valid, e.space, e.page, e.frame, e.rights]);
        }
        for e in &self.ranges {
            words.extend([e.valid, e.space, e.base, e.limit, e.offset, e.rights]);
        }
        words.extend([self.last, self.next, self.seen]);
        words
    }

    pub fn sound(&self, rules: &Rules) -> bool {
        let last_right = match self.last {
            0..=31 => self.ranges[self.last as usize].valid == 1,
            last => last == NONE,
        };
        last_right
            && self.next <= 31
            && self.pages.iter().enumerate().all(|(i, e)| e.sound(i))
            && self.ranges.iter().all(|e| e.sound(rules))
    }

    /// Brings the unit up to the log's end.
    fn catch_up(&mut self, b: &Buffers, rules: &Rules) {
        let removals = b.removals();
        if removals - self.seen > rules.singly {
            *self = Unit::fresh();
        } else {
            for m in self.seen..removals {
                self.forget(b.record(m + 1));
            }
        }
        self.seen = removals;
    }

    /// Drops the entries that a removal record touches.
    fn forget(&mut self, gone: Removal) {
        let end = gone.first + gone.count;
        for e in self.pages.iter_mut() {
            if e.valid == 1 && e.space == gone.space && (gone.first..end).contains(&e.page) {
                *e = PageEntry::default();
            }
        }
        for (place, e) in self.ranges.iter_mut().enumerate() {
            if e.valid == 1 && e.space == gone.space && e.base < end && gone.first < e.limit {
                *e = RangeEntry::default();
                if self.last == place as u32 {
                    self.last = NONE;
                }
            }
        }
    }

    /// The place of the range entry that serves the page: last used first.
    fn range_holding(&self, space: u32, page: u32, rules: &Rules) -> Option<usize> {
        let holds = |place: &usize| {
            let e = &self.ranges[*place];
            e.valid == 1
                && e.space == space
                && e.base <= page
                && (page < e.limit || rules.limit_covered && page == e.limit)
        };
        let last = (self.last < NONE).then_some(self.last as usize);
        last.into_iter().chain(0..RANGE_ENTRIES).find(holds)
    }

    /// Frame and way, in a unit that has caught up. Altered only if accepted.
    fn decide(
        &mut self,
        b: &Buffers,
        space: u32,
        page: u32,
        access: u32,
        rules: &Rules,
    ) -> Outcome {
        let place = page as usize % PAGE_ENTRIES;

        let e = self.pages[place];
        if e.valid == 1 && e.space == space && e.page == page {
            permitted(e.rights, access)?;
            return Ok((e.frame, 1));
        }

        if let Some(at) = self.range_holding(space, page, rules) {
            let e = self.ranges[at];
            permitted(e.rights, access)?;
            let frame = page.wrapping_add(e.offset);
            self.pages[place] = PageEntry {
                valid: 1,
                space,
                page,
                frame,
                rights: e.rights,
            };
            self.last = at as u32;
            return Ok((frame, 2));
        }

        let word = b.page(space, page);
        if word == 0 {
            return Err(12);
        }
        permitted(rights_of(word), access)?;
        self.pages[place] = PageEntry {
            valid: 1,
            space,
            page,
            frame: frame_of(word),
            rights: rights_of(word),
        };
        if in_range(word) {
            let range = b
                .space_ranges(space)
                .chunks_exact(4)
                .find(|r| r[0] <= page && page < r[1])
                .unwrap();
            self.ranges[self.next as usize] = RangeEntry {
                valid: 1,
                space,
                base: range[0],
                limit: range[1],
                offset: range[2],
                rights: range[3],
            };
            self.last = self.next;
            self.next = (self.next + 1) % RANGE_ENTRIES as u32;
        }
        Ok((frame_of(word), 3))
    }
}

fn permitted(rights: u32, access: u32) -> Result<(), u32> {
    if rights & access == 0 {
        return Err(13);
    }
    Ok(())
}

pub fn set_up_unit(unit: &mut Unit) -> Outcome {
    *unit = Unit::fresh();
    Ok((0, 0))
}

pub fn translate(
    b: &Buffers,
    unit: &mut Unit,
    space: u32,
    page: u32,
    access: u32,
    rules: &Rules,
) -> Outcome {
    tables::judge(b)?;
    if !unit.sound(rules) {
        return Err(2);
    }
    if unit.seen > b.removals() {
        return Err(3);
    }
    if space > 3 {
        return Err(5);
    }
    if !matches!(access, 1 | 2 | 4) {
        return Err(7);
    }
    if page > 1023 {
        return Err(8);
    }
    if !b.is_open(space) {
        return Err(10);
    }
    let mut caught = *unit;
    caught.catch_up(b, rules);
    let outcome = caught.decide(b, space, page, access, rules);
    if outcome.is_ok() || rules.keep {
        *unit = caught;
    }
    outcome
}
