//! The proved calls, through the exported interface.
#[derive(Clone, PartialEq)]
pub struct World {
    pub control: Vec<u32>,
    pub frames: Vec<u32>,
    pub pages: Vec<u32>,
    pub ranges: Vec<u32>,
    pub unit: Vec<u32>,
}

#[derive(Clone, Copy, PartialEq, Debug)]
pub struct Answer {
    pub number: u32,
    pub first: u32,
    pub second: u32,
}

/// What a place for the two values holds before a call.
pub const VALUES: [u32; 2] = [0xdead_beef; 2];

/// A call by its number in the second program's protocol, with its arguments.
#[derive(Clone, Copy, PartialEq, Debug)]
pub struct Call {
    pub kind: u32,
    pub arguments: [u32; 4],
}

pub const SET_UP_POOL: u32 = 1;
pub const OPEN: u32 = 2;
pub const CLOSE: u32 = 3;
pub const MAP: u32 = 4;
pub const UNMAP: u32 = 5;
pub const PROTECT: u32 = 6;
pub const TRANSLATE: u32 = 7;
pub const COVERAGE: u32 = 8;
pub const SET_UP_UNIT: u32 = 9;
pub const PREVIEW: u32 = 10;

// words of the control buffer, and where its removal records begin
pub const CONTROL: usize = 195;
pub const RECORDS: usize = 3;

/// What rights count in a page word.
pub const RIGHTS: u32 = 4_096;

pub const UNIT: usize = 515;
pub const LAST: usize = 512;
pub const NEXT: usize = 513;
pub const SEEN: usize = 514;

impl World {
    pub fn zeroed() -> World {
        World {
            control: vec![0; CONTROL],
            frames: vec![0; 4096],
            pages: vec![0; 4096],
            ranges: vec![0; 2048],
            unit: vec![0; UNIT],
        }
    }

    /// The page words of a space.
    pub fn space_pages(&self, space: u32) -> &[u32] {
        &self.pages[1024 * space as usize..][..1024]
    }

    /// Used entries of a space's range table.
    pub fn ranges_used(&self, space: u32) -> u32 {
        let entries = self.ranges[512 * space as usize..][..512].chunks(4);
        entries.filter(|e| e.iter().any(|w| *w != 0)).count() as u32
    }
}

// a slice crosses as a pointer and a length in words
extern "C" {
    fn yavrestom_set_up_pool(
        control: *mut u32,
        cn: usize,
        frames: *mut u32,
        fnn: usize,
        pages: *mut u32,
        pn: usize,
        ranges: *mut u32,
        rn: usize,
        pool: u32,
        values: *mut u32,
        vn: usize,
    ) -> u32;
    fn yavrestom_open(
        control: *mut u32,
        cn: usize,
        frames: *mut u32,
        fnn: usize,
        pages: *mut u32,
        pn: usize,
        ranges: *mut u32,
        rn: usize,
        space: u32,
        values: *mut u32,
        vn: usize,
    ) -> u32;
    fn yavrestom_close(
        control: *mut u32,
        cn: usize,
        frames: *mut u32,
        fnn: usize,
        pages: *mut u32,
        pn: usize,
        ranges: *mut u32,
        rn: usize,
        space: u32,
        values: *mut u32,
        vn: usize,
    ) -> u32;
    fn yavrestom_map(
        control: *mut u32,
        cn: usize,
        frames: *mut u32,
        fnn: usize,
        pages: *mut u32,
        pn: usize,
        ranges: *mut u32,
        rn: usize,
        space: u32,
        first: u32,
        count: u32,
        rights: u32,
        values: *mut u32,
        vn: usize,
    ) -> u32;
    fn yavrestom_preview(
        control: *const u32,
        cn: usize,
        frames: *const u32,
        fnn: usize,
        pages: *const u32,
        pn: usize,
        ranges: *const u32,
        rn: usize,
        space: u32,
        first: u32,
        count: u32,
        rights: u32,
        values: *mut u32,
        vn: usize,
    ) -> u32;
    fn yavrestom_unmap(
        control: *mut u32,
        cn: usize,
        frames: *mut u32,
        fnn: usize,
        pages: *mut u32,
        pn: usize,
        ranges: *mut u32,
        rn: usize,
        space: u32,
        first: u32,
        count: u32,
        values: *mut u32,
        vn: usize,
    ) -> u32;
    fn yavrestom_protect(
        control: *mut u32,
        cn: usize,
        frames: *mut u32,
        fnn: usize,
        pages: *mut u32,
        pn: usize,
        ranges: *mut u32,
        rn: usize,
        space: u32,
        first: u32,
        count: u32,
        rights: u32,
        values: *mut u32,
        vn: usize,
    ) -> u32;
    fn yavrestom_coverage(
        control: *mut u32,
        cn: usize,
        frames: *mut u32,
        fnn: usize,
        pages: *mut u32,
        pn: usize,
        ranges: *mut u32,
        rn: usize,
        space: u32,
        values: *mut u32,
        vn: usize,
    ) -> u32;
    fn yavrestom_translate(
        unit: *mut u32,
        un: usize,
        control: *mut u32,
        cn: usize,
        frames: *mut u32,
        fnn: usize,
        pages: *mut u32,
        pn: usize,
        ranges: *mut u32,
        rn: usize,
        space: u32,
        page: u32,
        access: u32,
        values: *mut u32,
        vn: usize,
    ) -> u32;
    fn yavrestom_set_up_unit(unit: *mut u32, un: usize, values: *mut u32, vn: usize) -> u32;
}

impl World {
    /// The proved call on these words. The two values are taken from a lent place that held other numbers before.
    pub fn call(&mut self, call: Call) -> Answer {
        let mut values = VALUES;
        let number = self.call_into(call, &mut values);
        Answer {
            number,
            first: values[0],
            second: values[1],
        }
    }

    /// The number, with a place of any length for the values.
    pub fn call_into(&mut self, call: Call, values: &mut [u32]) -> u32 {
        let (v, vn) = (values.as_mut_ptr(), values.len());
        let [a, b, c, d] = call.arguments;
        let (cp, cn) = (self.control.as_mut_ptr(), self.control.len());
        let (fp, fl) = (self.frames.as_mut_ptr(), self.frames.len());
        let (pp, pn) = (self.pages.as_mut_ptr(), self.pages.len());
        let (rp, rn) = (self.ranges.as_mut_ptr(), self.ranges.len());
        let (up, un) = (self.unit.as_mut_ptr(), self.unit.len());
        // the pointers are of vectors of these lengths, none of them twice
        unsafe {
            match call.kind {
                SET_UP_POOL => yavrestom_set_up_pool(cp, cn, fp, fl, pp, pn, rp, rn, a, v, vn),
                OPEN => yavrestom_open(cp, cn, fp, fl, pp, pn, rp, rn, a, v, vn),
                CLOSE => yavrestom_close(cp, cn, fp, fl, pp, pn, rp, rn, a, v, vn),
                MAP => yavrestom_map(cp, cn, fp, fl, pp, pn, rp, rn, a, b, c, d, v, vn),
                UNMAP => yavrestom_unmap(cp, cn, fp, fl, pp, pn, rp, rn, a, b, c, v, vn),
                PROTECT => yavrestom_protect(cp, cn, fp, fl, pp, pn, rp, rn, a, b, c, d, v, vn),
                TRANSLATE => yavrestom_translate(up, un, cp, cn, fp, fl, pp, pn, rp, rn, a, b, c, v, vn),
                COVERAGE => yavrestom_coverage(cp, cn, fp, fl, pp, pn, rp, rn, a, v, vn),
                SET_UP_UNIT => yavrestom_set_up_unit(up, un, v, vn),
                PREVIEW => yavrestom_preview(cp, cn, fp, fl, pp, pn, rp, rn, a, b, c, d, v, vn),
                other => panic!("no call {other}"),
            }
        }
    }
}
