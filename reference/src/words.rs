//! The layout of the four lent buffers.

pub const CONTROL: usize = 195;
pub const FRAMES: usize = 4096;
pub const PAGES: usize = 4096;
pub const RANGES: usize = 2048;

pub const SPACES: usize = 4;
/// Pages of one space.
pub const SPAN: usize = 1024;
/// Words of one space's range table: 128 entries of four.
pub const TABLE: usize = 512;
/// Places of the removal log.
pub const LOG: u32 = 64;
pub const TOP_ORDER: u32 = 10;
/// A run of this many pages is a range.
pub const THRESHOLD: usize = 8;

// Frame words.
pub const FREE: u32 = 8192;
pub const HEAD: u32 = 16384;
pub const OUTSIDE: u32 = 65535;

// Page words.
pub const MAPPED: u32 = 65536;
pub const IN_RANGE: u32 = 32768;

/// Two values, or the number of the refusal.
pub type Outcome = Result<(u32, u32), u32>;

/// Answer, first and second.
pub fn numbers(outcome: Outcome) -> [u32; 3] {
    match outcome {
        Ok((first, second)) => [0, first, second],
        Err(refusal) => [refusal, 0, 0],
    }
}

/// The four buffers, of any length and contents.
#[derive(Clone, PartialEq, Eq, Debug)]
pub struct Buffers {
    pub control: Vec<u32>,
    pub frames: Vec<u32>,
    pub pages: Vec<u32>,
    pub ranges: Vec<u32>,
}

impl Buffers {
    pub fn zeroed() -> Buffers {
        Buffers {
            control: vec![0; CONTROL],
            frames: vec![0; FRAMES],
            pages: vec![0; PAGES],
            ranges: vec![0; RANGES],
        }
    }

    pub fn lengths_right(&self) -> bool {
        self.control.len() == CONTROL
            && self.frames.len() == FRAMES
            && self.pages.len() == PAGES
            && self.ranges.len() == RANGES
    }

    pub fn pool_size(&self) -> u32 {
        self.control[0]
    }

    /// C, the count of removal records.
    pub fn removals(&self) -> u32 {
        self.control[1]
    }

    pub fn is_open(&self, space: u32) -> bool {
        self.control[2] >> space & 1 == 1
    }

    /// Record m, from its place.
    pub fn record(&self, m: u32) -> Removal {
        let at = record_at(m % LOG);
        Removal {
            space: self.control[at],
            first: self.control[at + 1],
            count: self.control[at + 2],
        }
    }

    /// Appends a removal record; C is below its greatest value.
    pub fn append(&mut self, removal: Removal) {
        let m = self.control[1] + 1;
        self.control[1] = m;
        let at = record_at(m % LOG);
        self.control[at] = removal.space;
        self.control[at + 1] = removal.first;
        self.control[at + 2] = removal.count;
    }

    pub fn page(&self, space: u32, page: u32) -> u32 {
        self.pages[SPAN * space as usize + page as usize]
    }

    pub fn space_pages(&self, space: u32) -> &[u32] {
        let at = SPAN * space as usize;
        &self.pages[at..at + SPAN]
    }

    pub fn space_ranges(&self, space: u32) -> &[u32] {
        let at = TABLE * space as usize;
        &self.ranges[at..at + TABLE]
    }
}

/// One entry of the removal log.
#[derive(Clone, Copy, PartialEq, Eq, Debug)]
pub struct Removal {
    pub space: u32,
    pub first: u32,
    pub count: u32,
}

/// Where the record in a place of the log begins in control.
pub fn record_at(place: u32) -> usize {
    3 + 3 * place as usize
}

/// The frame word of a frame held by this page.
pub fn owner(space: u32, page: u32) -> u32 {
    1 + 1024 * space + page
}

pub fn is_held(frame_word: u32) -> bool {
    (1..=4096).contains(&frame_word)
}

pub fn is_free(frame_word: u32) -> bool {
    frame_word == FREE || (HEAD..=HEAD + TOP_ORDER).contains(&frame_word)
}

/// A page word without the range bit.
pub fn page_word(frame: u32, rights: u32) -> u32 {
    MAPPED + 4096 * rights + frame
}

pub fn frame_of(page_word: u32) -> u32 {
    page_word & 4095
}

pub fn rights_of(page_word: u32) -> u32 {
    page_word >> 12 & 7
}

/// Whether rights may be given and held: read 1, write 2 and execute 4 added, but
/// write only with read, since the processor reserves 2 and 6.
pub fn rights_allowed(rights: u32) -> bool {
    rights <= 7 && rights & 3 != 2
}

pub fn in_range(page_word: u32) -> bool {
    page_word & IN_RANGE != 0
}

/// Whether all words are this one. Reads every word, without a branch for each.
pub fn all_are(words: &[u32], word: u32) -> bool {
    words.iter().fold(0, |differ, w| differ | (w ^ word)) == 0
}
