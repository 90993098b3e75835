//! Random record files. The generator runs the calls as it writes them and
//! chooses arguments by the state they leave.

use std::io::{self, Write};

use crate::trace::*;
use crate::unit::Rules;
use crate::words::*;

#[derive(Clone, Copy, PartialEq, Eq, Debug)]
pub enum Style {
    Mixed,
    Sleep,
    Fragment,
    Big,
    Grow,
    Garbage,
}

impl Style {
    pub fn named(name: &str) -> Option<Style> {
        Some(match name {
            "mixed" => Style::Mixed,
            "sleep" => Style::Sleep,
            "fragment" => Style::Fragment,
            "big" => Style::Big,
            "grow" => Style::Grow,
            "garbage" => Style::Garbage,
            _ => return None,
        })
    }
}

/// Writes n records.
pub fn generate<W: Write>(seed: u64, n: u64, style: Style, output: &mut W) -> io::Result<()> {
    let mut maker = Maker {
        random: Random(seed),
        core: Core::new(Rules::default()),
        output,
        left: n,
    };
    let end = match style {
        Style::Mixed => maker.mixed(),
        Style::Sleep => maker.sleep(),
        Style::Fragment => maker.fragment(),
        Style::Big => maker.big(),
        Style::Grow => maker.grow(),
        Style::Garbage => maker.garbage(),
    };
    match end {
        Err(Stop::Failed(e)) => Err(e),
        _ => Ok(()),
    }
}

/// splitmix64.
pub struct Random(pub u64);

impl Random {
    pub fn next(&mut self) -> u64 {
        self.0 = self.0.wrapping_add(0x9e37_79b9_7f4a_7c15);
        let mut z = self.0;
        z = (z ^ (z >> 30)).wrapping_mul(0xbf58_476d_1ce4_e5b9);
        z = (z ^ (z >> 27)).wrapping_mul(0x94d0_49bb_1331_11eb);
        z ^ (z >> 31)
    }

    /// A number below n.
    pub fn below(&mut self, n: u64) -> u64 {
        ((self.next() as u128 * n as u128) >> 64) as u64
    }

    /// A number from low to high, both included.
    pub fn among(&mut self, low: u16, high: u16) -> u16 {
        low + self.below(high as u64 - low as u64 + 1) as u16
    }

    /// True once in n.
    pub fn one_in(&mut self, n: u64) -> bool {
        self.below(n) == 0
    }

    pub fn pick<T: Copy>(&mut self, from: &[T]) -> T {
        from[self.below(from.len() as u64) as usize]
    }
}

enum Stop {
    Done,
    Failed(io::Error),
}

type Step<T> = Result<T, Stop>;

/// A stretch of pages: first page and count.
type Stretch = (u16, u16);

/// A buffer that grows: its space, first page and the room it has there.
#[derive(Clone, Copy)]
struct Buffer {
    space: u16,
    first: u16,
    room: u16,
}

/// Space and page that hold a frame, by its word.
fn page_of(held: u32) -> (u16, u16) {
    let owner = held as u16 - 1;
    (owner / 1024, owner % 1024)
}

struct Maker<'a, W> {
    random: Random,
    core: Core,
    output: &'a mut W,
    left: u64,
}

impl<W: Write> Maker<'_, W> {
    /// Writes a record as it is; it makes no call.
    fn raw(&mut self, bytes: &[u8]) -> Step<()> {
        if self.left == 0 {
            return Err(Stop::Done);
        }
        self.left -= 1;
        self.output.write_all(bytes).map_err(Stop::Failed)
    }

    /// Writes a call and makes it; true if accepted.
    fn call(&mut self, kind: u16, args: &[u16]) -> Step<bool> {
        let call = Call::new(kind, args);
        self.raw(&call.bytes())?;
        Ok(self.core.perform(&call).is_ok())
    }

    // What the state offers.

    fn spaces(&self, open: bool) -> Vec<u16> {
        (0..4)
            .filter(|&s| self.core.buffers.is_open(s as u32) == open)
            .collect()
    }

    fn word(&self, space: u16, page: u16) -> u32 {
        self.core.buffers.page(space as u32, page as u32)
    }

    /// The longest stretches of mapped, or of unmapped, pages.
    fn stretches(&self, space: u16, mapped: bool) -> Vec<Stretch> {
        let mut all = Vec::new();
        let mut count = 0;
        for page in 0..=1024 {
            if page < 1024 && (self.word(space, page) != 0) == mapped {
                count += 1;
            } else if count > 0 {
                all.push((page - count, count));
                count = 0;
            }
        }
        all
    }

    fn free_frames(&self) -> u16 {
        let frames = &self.core.buffers.frames;
        frames.iter().filter(|&&w| is_free(w)).count() as u16
    }

    fn behind(&self, unit: u16) -> u32 {
        self.core.buffers.removals() - self.core.units[unit as usize].seen
    }

    // Choices.

    /// An open space, if there is one.
    fn open_space(&mut self) -> u16 {
        let open = self.spaces(true);
        if open.is_empty() {
            return self.random.among(0, 3);
        }
        self.random.pick(&open)
    }

    /// An open space with mapped pages, mostly.
    fn busy_space(&mut self) -> u16 {
        let pages = |s: u16| self.core.buffers.space_pages(s as u32);
        let busy: Vec<u16> = (0..4)
            .filter(|&s| pages(s).iter().any(|&w| w != 0))
            .collect();
        if busy.is_empty() || self.random.one_in(20) {
            return self.open_space();
        }
        self.random.pick(&busy)
    }

    /// Rights that are allowed.
    fn rights(&mut self) -> u16 {
        self.random.pick(&[0, 1, 3, 3, 3, 4, 5, 7, 7])
    }

    fn access(&mut self) -> u16 {
        self.random.pick(&[1, 2, 4])
    }

    fn unit(&mut self) -> u16 {
        self.random.among(0, 1)
    }

    fn most(&mut self) -> u16 {
        self.random.pick(&[1, 2, 4, 8, 9, 16, 30, 100, 1024])
    }

    /// Part of a stretch of at most so many pages, often at one of its ends.
    fn part(&mut self, (first, count): Stretch, most: u16) -> Stretch {
        let taken = self.random.among(1, count.min(most));
        let start = match self.random.below(3) {
            0 => first,
            1 => first + count - taken,
            _ => self.random.among(first, first + count - taken),
        };
        (start, taken)
    }

    fn mapped_part(&mut self, space: u16, most: u16) -> Option<Stretch> {
        let all = self.stretches(space, true);
        if all.is_empty() {
            return None;
        }
        let stretch = self.random.pick(&all);
        Some(self.part(stretch, most))
    }

    fn unmapped_part(&mut self, space: u16, most: u16) -> Option<Stretch> {
        let all = self.stretches(space, false);
        if all.is_empty() {
            return None;
        }
        let stretch = self.random.pick(&all);
        Some(self.part(stretch, most))
    }

    fn any_part(&mut self) -> Stretch {
        let first = self.random.among(0, 1030);
        let most = self.most();
        (first, self.random.among(0, most))
    }

    /// A page that a unit or the tables hold, or lies just past a range.
    fn likely_page(&mut self, unit: u16, space: u16) -> u16 {
        let held = &self.core.units[unit as usize];
        let pages: Vec<u32> = held
            .pages
            .iter()
            .filter(|e| e.valid == 1 && e.space == space as u32)
            .map(|e| e.page)
            .collect();
        let ranges: Vec<(u32, u32)> = held
            .ranges
            .iter()
            .filter(|e| e.valid == 1 && e.space == space as u32)
            .map(|e| (e.base, e.limit))
            .collect();
        match self.random.below(6) {
            0 if !pages.is_empty() => self.random.pick(&pages) as u16,
            1..=3 if !ranges.is_empty() => {
                let (base, limit) = self.random.pick(&ranges);
                let inside = self.random.among(base as u16, limit as u16 - 1);
                let edge = self.random.pick(&[base, limit - 1, limit]) as u16;
                self.random.pick(&[inside, inside, edge])
            }
            _ => match self.mapped_part(space, 1024) {
                Some((first, count)) => self.random.among(first, first + count - 1),
                None => self.random.among(0, 1023),
            },
        }
    }

    /// An access that the page word or a held entry allows, mostly.
    fn likely_access(&mut self, space: u16, page: u16) -> u16 {
        let rights = match page {
            0..=1023 if space < 4 => rights_of(self.word(space, page)) as u16,
            _ => 0,
        };
        let allowed: Vec<u16> = [1, 2, 4].into_iter().filter(|a| rights & a != 0).collect();
        if allowed.is_empty() || self.random.one_in(8) {
            return self.access();
        }
        self.random.pick(&allowed)
    }

    /// Puts an odd number in one place, once in a while.
    fn spoil(&mut self, args: &mut [u16]) {
        if self.random.one_in(10) {
            let at = self.random.below(args.len() as u64) as usize;
            let any = self.random.next() as u16;
            args[at] = self
                .random
                .pick(&[0, 2, 3, 4, 5, 7, 8, 9, 1022, 1023, 1024, 1025, 65535, any]);
        }
    }

    /// Asks for reserved rights, once in a while.
    fn reserve(&mut self, rights: &mut u16) {
        if self.random.one_in(30) {
            *rights = self.random.pick(&[2, 6]);
        }
    }

    // Single calls.

    fn set_up(&mut self, sizes: &[u16]) -> Step<bool> {
        let size = self.random.pick(sizes);
        self.call(SETUP, &[size])
    }

    fn open_all(&mut self) -> Step<()> {
        for space in 0..4 {
            self.call(OPEN, &[space])?;
        }
        Ok(())
    }

    fn do_open(&mut self) -> Step<bool> {
        let closed = self.spaces(false);
        let space = match closed.is_empty() || self.random.one_in(4) {
            true => self.random.among(0, 5),
            false => self.random.pick(&closed),
        };
        self.call(OPEN, &[space])
    }

    fn do_close(&mut self) -> Step<bool> {
        let space = match self.random.one_in(4) {
            true => self.random.among(0, 5),
            false => self.open_space(),
        };
        self.call(CLOSE, &[space])
    }

    fn do_map(&mut self, most: u16) -> Step<bool> {
        let space = self.open_space();
        let free = self.free_frames();
        let most = match free == 0 || self.random.one_in(8) {
            true => most,
            false => most.min(free),
        };
        let (first, count) = match self.unmapped_part(space, most) {
            Some(stretch) if !self.random.one_in(8) => stretch,
            _ => match self.mapped_part(space, most) {
                Some(stretch) if self.random.one_in(2) => stretch,
                _ => self.any_part(),
            },
        };
        // The rights of the page before let runs join.
        let rights = match first {
            1..=1024 if self.random.one_in(2) && self.word(space, first - 1) != 0 => {
                rights_of(self.word(space, first - 1)) as u16
            }
            _ => self.rights(),
        };
        let mut args = [space, first, count, rights];
        self.reserve(&mut args[3]);
        self.spoil(&mut args);
        self.call(MAP, &args)
    }

    fn do_unmap(&mut self, most: u16) -> Step<bool> {
        let space = self.busy_space();
        let (first, count) = match self.mapped_part(space, most) {
            Some(stretch) if !self.random.one_in(10) => stretch,
            _ => self.any_part(),
        };
        let mut args = [space, first, count];
        self.spoil(&mut args);
        self.call(UNMAP, &args)
    }

    fn do_protect(&mut self, most: u16) -> Step<bool> {
        let space = self.busy_space();
        let (first, count) = match self.mapped_part(space, most) {
            Some(stretch) if !self.random.one_in(10) => stretch,
            _ => self.any_part(),
        };
        let mut args = [space, first, count, self.rights()];
        self.reserve(&mut args[3]);
        self.spoil(&mut args);
        self.call(PROTECT, &args)
    }

    fn do_translate(&mut self, unit: u16) -> Step<bool> {
        let space = match self.random.one_in(20) {
            true => self.random.among(0, 3),
            false => self.busy_space(),
        };
        let page = match self.random.one_in(16) {
            true => self.random.among(0, 1025),
            false => self.likely_page(unit, space),
        };
        let mut args = [unit, space, page, self.likely_access(space, page)];
        self.spoil(&mut args);
        self.call(TRANSLATE, &args)
    }

    fn do_coverage(&mut self) -> Step<bool> {
        let space = match self.random.one_in(6) {
            true => self.random.among(0, 5),
            false => self.busy_space(),
        };
        self.call(COVERAGE, &[space])
    }

    /// A whole record that is malformed.
    fn do_malformed(&mut self) -> Step<()> {
        let bytes = match self.random.below(6) {
            0 => vec![0, 0],
            1 => vec![1, 0, self.random.next() as u8],
            2 => {
                // Unknown kind with the length of some call.
                let kind = self.random.pick(&[0, 9, 10, 255, 256, 257, 65535]);
                let length = 2 + 2 * self.random.among(0, 5);
                self.framed(kind, length)
            }
            3 => {
                // Known kind with a wrong length, odd ones too.
                let kind = self.random.among(1, 8);
                let right = 2 + 2 * ARGS[kind as usize] as u16;
                let length = match self.random.among(2, 12) {
                    length if length == right => right + 1,
                    length => length,
                };
                self.framed(kind, length)
            }
            4 => {
                let kind = self.random.next() as u16;
                let kind = kind.saturating_add(9);
                let length = self.random.among(2, 400);
                self.framed(kind, length)
            }
            _ => {
                let unit = self.random.pick(&[2, 3, 256, 65535]);
                Call::new(TRANSLATE, &[unit, 0, 0, 1]).bytes()
            }
        };
        self.raw(&bytes)
    }

    /// A record of a kind and length with random bytes.
    fn framed(&mut self, kind: u16, length: u16) -> Vec<u8> {
        let mut bytes = length.to_le_bytes().to_vec();
        bytes.extend(kind.to_le_bytes());
        while bytes.len() < 2 + length as usize {
            bytes.push(self.random.next() as u8);
        }
        bytes
    }

    // Styles.

    fn mixed(&mut self) -> Step<()> {
        // Calls before the first set-up.
        let early = self.random.among(1, 7);
        for _ in 0..early {
            match self.random.below(5) {
                0 => self.call(OPEN, &[0])?,
                1 => self.call(MAP, &[0, 0, 8, 3])?,
                2 => self.call(TRANSLATE, &[0, 0, 0, 1])?,
                3 => self.call(COVERAGE, &[9])?,
                _ => self.call(CLOSE, &[0])?,
            };
        }
        let bad = [0, 4097, 65535];
        let good = [
            1, 6, 16, 31, 32, 33, 64, 100, 128, 200, 300, 1000, 2048, 3000, 4095, 4096,
        ];
        self.set_up(&bad)?;
        self.set_up(&good)?;
        loop {
            let unit = self.unit();
            let most = self.most();
            if self.spaces(true).is_empty() && self.random.one_in(2) {
                self.do_open()?;
            }
            match self.random.below(1000) {
                0..=3 => self.set_up(&good)?,
                4..=6 => self.set_up(&bad)?,
                7..=49 => self.do_open()?,
                50..=59 => self.do_close()?,
                60..=239 => self.do_map(most)?,
                240..=349 => self.do_unmap(most)?,
                350..=449 => self.do_protect(most)?,
                450..=929 => self.do_translate(unit)?,
                930..=979 => self.do_coverage()?,
                _ => {
                    self.do_malformed()?;
                    false
                }
            };
        }
    }

    /// Units fall about 64 removal records behind and wake.
    fn sleep(&mut self) -> Step<()> {
        loop {
            self.set_up(&[300, 512, 700, 1024])?;
            self.call(OPEN, &[0])?;
            self.call(OPEN, &[1])?;
            for _ in 0..8 {
                self.sleep_once()?;
            }
        }
    }

    /// Pages 0 to 127 of space 0 are mostly left alone, those of space 1 from
    /// 500 on are worked upon.
    fn sleep_once(&mut self) -> Step<()> {
        let unit = self.unit();
        self.fill_span(0, 0, 128)?;
        self.fill_span(1, 500, 24)?;
        for _ in 0..self.random.among(4, 14) {
            self.wake(unit)?;
            if self.random.one_in(2) {
                self.wake(1 - unit)?;
            }
        }
        let length = match self.random.below(8) {
            0 => self.random.among(1, 130),
            1 => self.random.pick(&[62, 66, 128]),
            _ => self.random.pick(&[63, 64, 65]),
        } as u32;

        // The first record, which 65 behind has lost, names what a unit holds.
        let first = self.random.among(0, 127);
        let removed = match self.random.below(3) {
            0 => self.call(UNMAP, &[0, first, 1])?,
            1 => self.call(PROTECT, &[0, first, 1, 1])?,
            _ => self.call(UNMAP, &[0, first & !7, 8])?,
        };
        if removed && self.random.one_in(3) {
            self.fill_span(0, first & !7, 8)?;
        }
        while self.behind(unit) < length {
            self.remove_something()?;
            match self.random.below(40) {
                0..=7 => {
                    self.wake(1 - unit)?;
                }
                // Refused in its sleep, it stays behind.
                8 => {
                    self.call(TRANSLATE, &[unit, 0, 900, 1])?;
                }
                _ => {}
            }
        }
        if self.random.one_in(3) {
            let (space, page) = self.random.pick(&[(0, 900), (1, 0), (2, 5), (4, 1)]);
            self.call(TRANSLATE, &[unit, space, page, 1])?;
        }
        // What the lost record named, then others.
        let access = self.likely_access(0, first);
        self.call(TRANSLATE, &[unit, 0, first, access])?;
        for _ in 0..self.random.among(2, 10) {
            self.wake(unit)?;
        }
        Ok(())
    }

    fn wake(&mut self, unit: u16) -> Step<bool> {
        if self.random.one_in(6) {
            return self.do_translate(unit);
        }
        let (space, page) = match self.random.one_in(4) {
            true => (1, self.random.among(500, 524)),
            false => (0, self.random.among(0, 128)),
        };
        let access = self.likely_access(space, page);
        self.call(TRANSLATE, &[unit, space, page, access])
    }

    /// Maps what is unmapped in a span.
    fn fill_span(&mut self, space: u16, first: u16, count: u16) -> Step<()> {
        if !self.core.buffers.is_open(space as u32) {
            self.call(OPEN, &[space])?;
        }
        let end = first + count;
        let rights = self.random.pick(&[1, 3, 7]);
        for (at, length) in self.stretches(space, false) {
            let (from, to) = (at.max(first), (at + length).min(end));
            if from < to {
                self.call(MAP, &[space, from, to - from, rights])?;
            }
        }
        Ok(())
    }

    /// One removal record, mostly away from the pages left alone.
    fn remove_something(&mut self) -> Step<()> {
        match self.random.below(60) {
            0 => {
                let page = self.random.among(0, 127);
                self.call(PROTECT, &[0, page, 1, 3])?;
            }
            1 => {
                self.call(CLOSE, &[1])?;
                self.fill_span(1, 500, 24)?;
            }
            2 => {
                self.call(OPEN, &[3])?;
                self.call(CLOSE, &[3])?;
            }
            3..=14 => {
                let page = self.random.among(500, 523);
                self.call(UNMAP, &[1, page, 1])?;
                let rights = self.rights();
                self.call(MAP, &[1, page, 1, rights])?;
            }
            _ => {
                let page = self.random.among(500, 523);
                let count = self.random.among(1, 524 - page);
                let rights = self.rights();
                self.call(PROTECT, &[1, page, count, rights])?;
            }
        }
        Ok(())
    }

    /// Pools are broken up and filled again.
    fn fragment(&mut self) -> Step<()> {
        loop {
            let size = self.random.among(20, 300);
            let size = self.random.pick(&[size, size, 64, 128, 255, 256, 257, 512]);
            self.call(SETUP, &[size])?;
            self.call(OPEN, &[0])?;
            self.call(OPEN, &[1])?;
            for _ in 0..self.random.among(1, 4) {
                if self.random.one_in(2) {
                    self.reach_half()?;
                }
                self.fill_pool()?;
                self.break_up()?;
                self.look_around(6)?;
                self.big_map()?;
                self.look_around(6)?;
                for _ in 0..self.random.among(0, 4) {
                    self.do_protect(12)?;
                    self.do_translate(0)?;
                    self.do_unmap(20)?;
                }
                if self.random.one_in(3) {
                    self.do_close()?;
                    self.do_open()?;
                }
            }
        }
    }

    fn look_around(&mut self, times: u16) -> Step<()> {
        for _ in 0..times {
            let unit = self.unit();
            match self.random.one_in(4) {
                true => self.do_coverage()?,
                false => self.do_translate(unit)?,
            };
        }
        Ok(())
    }

    /// Empties a space, brings its coverage to an exact half and asks for it.
    /// Where frames are lacking or lie scattered, another coverage comes out.
    fn reach_half(&mut self) -> Step<()> {
        let space = self.random.among(0, 3);
        if self.core.buffers.is_open(space as u32) {
            self.call(CLOSE, &[space])?;
        }
        self.call(OPEN, &[space])?;
        // Multiples of 32 pages have halves, others have none.
        let free = self.free_frames().min(1024);
        let mapped = 32 * self.random.among(1, (free / 32).max(1));
        // Few pages lie outside ranges, so that a few calls suffice. 29 of 32 are
        // a half that goes down, 31 of 32 one that goes up.
        let outside = self.random.pick(&[40, 40, 120]).max(mapped / 32 * 3);
        let way = self.random.pick(&[Half::Down, Half::Up]);
        let fitting: Vec<u16> = (8..mapped)
            .filter(|&inside| mapped - inside <= outside)
            .filter(|&inside| half(inside as u32, mapped as u32) == Some(way))
            .collect();
        let inside = self.random.pick(&fitting);
        // At worst every piece is a single page and needs a gap.
        let gaps_fit = mapped + (mapped - inside) <= 1024;
        match gaps_fit && self.random.one_in(2) {
            true => self.spans_apart(space, inside, mapped)?,
            false => self.end_in_pieces(space, inside, mapped)?,
        }
        self.call(COVERAGE, &[space])?;
        Ok(())
    }

    /// Maps a long span, and short ones apart from it and from one another.
    fn spans_apart(&mut self, space: u16, inside: u16, mapped: u16) -> Step<()> {
        let mut left = mapped - inside;
        let first = self.random.among(0, 1024 - mapped - left);
        let rights = self.rights();
        let mut done = self.call(MAP, &[space, first, inside, rights])?;
        let mut page = first + inside + 1;
        while done && left > 0 {
            let count = self.random.among(4, 7).min(left);
            done = self.call(MAP, &[space, page, count, rights])?;
            page += count + 1;
            left -= count;
        }
        Ok(())
    }

    /// Maps one span and splits its end by rights into short pieces.
    fn end_in_pieces(&mut self, space: u16, inside: u16, mapped: u16) -> Step<()> {
        let first = self.random.among(0, 1024 - mapped);
        let mut done = self.call(MAP, &[space, first, mapped, 3])?;
        let mut left = mapped - inside;
        let mut rights = 1;
        while done && left > 0 {
            let count = self.random.among(4, 7).min(left);
            left -= count;
            done = self.call(PROTECT, &[space, first + inside + left, count, rights])?;
            // Neighbours differ from one another and from the span.
            rights = 8 - rights;
        }
        Ok(())
    }

    /// Maps until no frame is free.
    fn fill_pool(&mut self) -> Step<()> {
        for _ in 0..20 {
            let free = self.free_frames();
            if free == 0 {
                break;
            }
            let space = self.open_space();
            let most = free.min(self.random.pick(&[7, 24, 64, 200]));
            if let Some((first, count)) = self.unmapped_part(space, most) {
                let rights = self.random.pick(&[3, 3, 3, 1]);
                self.call(MAP, &[space, first, count, rights])?;
            }
        }
        Ok(())
    }

    /// Unmaps every second page, or odd spans, of a stretch.
    fn break_up(&mut self) -> Step<()> {
        let space = self.open_space();
        let Some((first, count)) = self.mapped_part(space, 1024) else {
            return Ok(());
        };
        let way = self.random.below(4);
        let mut page = first;
        let end = first + count;
        for _ in 0..48 {
            let (gone, kept) = match way {
                0 => (1, 1),
                1 => (1, 3),
                2 => (3, 2),
                _ => (self.random.among(1, 7), self.random.among(1, 11)),
            };
            if page + gone > end {
                break;
            }
            self.call(UNMAP, &[space, page, gone])?;
            page += gone + kept;
        }
        Ok(())
    }

    /// Maps as many pages as frames are free, or some more or fewer.
    fn big_map(&mut self) -> Step<()> {
        let free = self.free_frames();
        let space = self.open_space();
        let mut gaps = self.stretches(space, false);
        gaps.sort_by_key(|g| std::cmp::Reverse(g.1));
        let Some(&(first, length)) = gaps.first() else {
            return Ok(());
        };
        if self.random.one_in(3) {
            self.call(MAP, &[space, first, (free + 1).min(length), 3])?;
        }
        let count = match self.random.below(3) {
            0 => free / 2,
            1 => free.saturating_sub(1),
            _ => free,
        };
        if count > 0 {
            self.call(MAP, &[space, first, count.min(length), 3])?;
        }
        Ok(())
    }

    /// Large pools, long spans, four spaces.
    fn big(&mut self) -> Step<()> {
        loop {
            let size = self.random.among(2000, 4096);
            let size = self.random.pick(&[size, 4096, 4096, 4095, 3000, 2048]);
            self.call(SETUP, &[size])?;
            self.open_all()?;
            for _ in 0..self.random.among(100, 400) {
                let unit = self.unit();
                let most = self.random.pick(&[40, 300, 1024, 1024]);
                match self.random.below(100) {
                    0..=2 => {
                        self.do_close()?;
                        self.open_all()?;
                    }
                    3..=24 => {
                        self.big_span(most)?;
                    }
                    25..=36 => {
                        self.do_unmap(most)?;
                    }
                    37..=48 => {
                        self.do_protect(most)?;
                    }
                    49..=55 => {
                        self.do_coverage()?;
                    }
                    56 => {
                        self.stripes()?;
                    }
                    _ => {
                        self.do_translate(unit)?;
                    }
                }
            }
        }
    }

    /// Cuts the longest mapped stretch into ranges of 8 by their rights, then
    /// translates here and there, so that range entries replace one another.
    fn stripes(&mut self) -> Step<()> {
        let space = self.busy_space();
        let mut mapped = self.stretches(space, true);
        mapped.sort_by_key(|m| std::cmp::Reverse(m.1));
        let Some(&(first, count)) = mapped.first() else {
            return Ok(());
        };
        let end = (first + count).min(first + self.random.pick(&[320, 640, 1024]));
        self.call(PROTECT, &[space, first, end - first, 3])?;
        for page in (first..end.saturating_sub(7)).step_by(16) {
            self.call(PROTECT, &[space, page, 8, 7])?;
        }
        let unit = self.unit();
        for _ in 0..self.random.among(30, 80) {
            let page = self.random.among(first, end - 1);
            self.call(TRANSLATE, &[unit, space, page, 1])?;
        }
        Ok(())
    }

    /// Maps one of the longest gaps of a space, or most of it.
    fn big_span(&mut self, most: u16) -> Step<bool> {
        let space = self.open_space();
        let mut gaps = self.stretches(space, false);
        gaps.sort_by_key(|g| std::cmp::Reverse(g.1));
        let Some(&(first, length)) = gaps.first() else {
            return self.do_map(most);
        };
        let count = match self.random.one_in(2) {
            true => length.min(most),
            false => self.random.among(1, length.min(most)),
        };
        let rights = self.random.pick(&[3, 3, 7, 1]);
        self.call(MAP, &[space, first, count, rights])
    }

    /// Buffers are extended in steps and in turns, on pools that break up.
    fn grow(&mut self) -> Step<()> {
        loop {
            // Small, and mostly no powers of two.
            let size = self.random.among(9, 140);
            let size = self
                .random
                .pick(&[size, size, size, 12, 21, 30, 43, 60, 64, 100]);
            self.call(SETUP, &[size])?;
            self.open_all()?;
            let buffers = self.buffers();
            for turn in 0..self.random.among(30, 100) as usize {
                let buffer = buffers[turn % buffers.len()];
                if self.free_frames() < self.random.among(0, 8) {
                    let other = self.random.pick(&buffers);
                    self.shrink(other)?;
                }
                match self.random.below(100) {
                    0..=29 => self.extend(buffer)?,
                    30..=41 => self.shrink(buffer)?,
                    42..=50 => self.mend(buffer)?,
                    51..=58 => self.extend_into(buffer)?,
                    59..=69 => self.protect_last(buffer)?,
                    70..=81 => self.page_zero()?,
                    82..=89 => self.extend_highest()?,
                    90..=97 => self.look_around(1)?,
                    _ => {
                        self.call(CLOSE, &[buffer.space])?;
                        self.call(OPEN, &[buffer.space])?;
                    }
                }
            }
        }
    }

    /// Places of some buffers, apart from one another; the last one may end at the
    /// last page.
    fn buffers(&mut self) -> Vec<Buffer> {
        let mut all = Vec::new();
        for i in 0..self.random.among(3, 6) {
            all.push(Buffer {
                space: self.random.among(0, 3),
                first: 150 * i + self.random.among(1, 20),
                room: 120,
            });
        }
        let room = self.random.among(8, 30);
        all.push(Buffer {
            space: self.random.among(0, 3),
            first: 1024 - room,
            room,
        });
        all
    }

    /// The page after a buffer's last mapped one.
    fn end_of(&self, buffer: Buffer) -> u16 {
        let pages = buffer.first..buffer.first + buffer.room;
        let last = pages.rev().find(|&p| self.word(buffer.space, p) != 0);
        last.map_or(buffer.first, |p| p + 1)
    }

    /// Maps at most `room` pages, mostly with the rights of the page before.
    fn step(&mut self, space: u16, first: u16, room: u16) -> Step<()> {
        let before = match first {
            0 => 0,
            _ => self.word(space, first - 1),
        };
        let rights = match before == 0 || self.random.one_in(4) {
            true => self.rights(),
            false => rights_of(before) as u16,
        };
        self.step_with(space, first, room, rights)
    }

    /// Maps at most `room` pages, and looks at one of them mostly.
    fn step_with(&mut self, space: u16, first: u16, room: u16, rights: u16) -> Step<()> {
        let free = self.free_frames();
        let most = match self.random.one_in(20) {
            true => room,
            false => room.min(free),
        };
        if most == 0 {
            return Ok(());
        }
        let count = self
            .random
            .pick(&[1, 1, 2, 2, 3, 4, 4, 5, 7, 8, 8, 9, 12, 16]);
        let count = count.min(most);
        if self.call(MAP, &[space, first, count, rights])? && !self.random.one_in(3) {
            let page = first + self.random.pick(&[0, 0, count / 2, count - 1]);
            let (unit, access) = (self.unit(), self.likely_access(space, page));
            self.call(TRANSLATE, &[unit, space, page, access])?;
        }
        Ok(())
    }

    /// Extends a buffer just after its last page.
    fn extend(&mut self, buffer: Buffer) -> Step<()> {
        let end = self.end_of(buffer);
        let room = buffer.first + buffer.room - end;
        if room == 0 {
            return self.shrink(buffer);
        }
        self.step(buffer.space, end, room)
    }

    /// Unmaps a page or a span of a buffer.
    fn shrink(&mut self, buffer: Buffer) -> Step<()> {
        let end = self.end_of(buffer);
        let inside = |s: &Stretch| buffer.first <= s.0 && s.0 < end;
        let all = self.stretches(buffer.space, true);
        let all: Vec<Stretch> = all.into_iter().filter(inside).collect();
        if all.is_empty() {
            return Ok(());
        }
        let stretch = self.random.pick(&all);
        let most = self.random.pick(&[1, 1, 2, 4, 9, 30]);
        let (first, count) = self.part(stretch, most);
        self.call(UNMAP, &[buffer.space, first, count])?;
        Ok(())
    }

    /// Maps in a gap of a buffer.
    fn mend(&mut self, buffer: Buffer) -> Step<()> {
        let end = self.end_of(buffer);
        let inside = |s: &Stretch| buffer.first < s.0 && s.0 < end;
        let gaps = self.stretches(buffer.space, false);
        let gaps: Vec<Stretch> = gaps.into_iter().filter(inside).collect();
        if gaps.is_empty() {
            return self.extend(buffer);
        }
        let (first, count) = self.random.pick(&gaps);
        self.step(buffer.space, first, count)
    }

    /// Frees the frame after that of a mapped page, where another page holds it.
    fn free_after(&mut self, space: u16, page: u16) -> Step<()> {
        let frame = frame_of(self.word(space, page)) as usize + 1;
        match self.core.buffers.frames.get(frame) {
            Some(&word) if is_held(word) => {
                let (space, page) = page_of(word);
                self.call(UNMAP, &[space, page, 1])?;
            }
            _ => {}
        }
        Ok(())
    }

    /// Extends a buffer where the next frame has just become free.
    fn extend_into(&mut self, buffer: Buffer) -> Step<()> {
        let end = self.end_of(buffer);
        if end > buffer.first {
            self.free_after(buffer.space, end - 1)?;
        }
        self.extend(buffer)
    }

    /// Gives a buffer's last page other rights and extends it with the former ones.
    fn protect_last(&mut self, buffer: Buffer) -> Step<()> {
        let end = self.end_of(buffer);
        let room = buffer.first + buffer.room - end;
        if end == buffer.first || room == 0 {
            return self.extend(buffer);
        }
        let former = rights_of(self.word(buffer.space, end - 1)) as u16;
        let rights = self.rights();
        self.call(PROTECT, &[buffer.space, end - 1, 1, rights])?;
        self.step_with(buffer.space, end, room, former)
    }

    /// Maps from page 0 of a space on where the last page of the space before is
    /// mapped.
    fn page_zero(&mut self) -> Step<()> {
        let space = self.random.among(1, 3);
        if self.word(space - 1, 1023) == 0 {
            self.step(space - 1, 1023, 1)?;
        }
        let mapped = self.stretches(space, true);
        if let Some(&(0, count)) = mapped.first() {
            self.call(UNMAP, &[space, 0, count])?;
        }
        if self.word(space - 1, 1023) != 0 && self.random.one_in(2) {
            self.free_after(space - 1, 1023)?;
        }
        let room = self.stretches(space, false)[0].1;
        self.step(space, 0, room)
    }

    /// Extends what holds the highest frame.
    fn extend_highest(&mut self) -> Step<()> {
        let frames = &self.core.buffers.frames;
        let Some(&word) = frames.iter().rev().find(|&&w| is_held(w)) else {
            return Ok(());
        };
        let (space, page) = page_of(word);
        let gaps = self.stretches(space, false);
        match gaps.iter().find(|g| g.0 == page + 1) {
            Some(&(first, room)) => self.step(space, first, room),
            None => self.look_around(1),
        }
    }

    /// Malformed records among calls; the last record is cut.
    fn garbage(&mut self) -> Step<()> {
        while self.left > 1 {
            let unit = self.unit();
            match self.random.below(20) {
                0..=9 => self.do_malformed()?,
                10 | 11 => {
                    // Any kind and any bytes; now and then a long one.
                    let kind = self.random.next() as u16;
                    let length = match self.random.one_in(30) {
                        true => self.random.among(2, 65535),
                        false => self.random.among(2, 60),
                    };
                    let bytes = self.framed(kind.max(9), length);
                    self.raw(&bytes)?;
                }
                12 | 13 => {
                    // A known kind of the right length with any arguments.
                    let kind = self.random.among(1, 8);
                    let args: Vec<u16> = (0..ARGS[kind as usize])
                        .map(|_| self.random.next() as u16)
                        .collect();
                    self.call(kind, &args)?;
                }
                14 => {
                    self.set_up(&[0, 1, 32, 100, 4096, 4097])?;
                }
                15 | 16 => {
                    self.do_open()?;
                }
                17 => {
                    self.do_map(20)?;
                }
                _ => {
                    self.do_translate(unit)?;
                }
            }
        }
        // One byte of a length, no body, or part of one.
        let kind = self.random.among(1, 8);
        let whole = self.random.among(4, 40);
        let mut bytes = self.framed(kind, whole);
        let kept = match self.random.below(4) {
            0 => 1,
            1 => 2,
            2 => 4,
            _ => self.random.among(1, whole + 1) as usize,
        };
        bytes.truncate(kept);
        self.raw(&bytes)
    }
}
