use crate::entries;
use crate::gen::{generate, Random, Style};
use crate::plain::{allowed, long_runs, nearest, refusals, unit_kept, Plain, PlainUnit};
use crate::pool::{self, Wish, WISHES};
use crate::state;
use crate::sv39::{from_sv39, to_sv39, word_of, Cause};
use crate::tables::{self, figure, judge};
use crate::text;
use crate::trace::*;
use crate::unit::{self, PageEntry, RangeEntry, Rules, Unit, UNIT_WORDS};
use crate::words::*;

const STYLES: [Style; 6] = [
    Style::Mixed,
    Style::Sleep,
    Style::Fragment,
    Style::Big,
    Style::Grow,
    Style::Garbage,
];

fn encoded(lines: &str) -> Vec<u8> {
    let mut bytes = Vec::new();
    text::encode(lines.as_bytes(), &mut bytes).unwrap();
    bytes
}

fn decoded(bytes: &[u8]) -> String {
    let mut lines = Vec::new();
    text::decode(bytes, &mut lines).unwrap();
    String::from_utf8(lines).unwrap()
}

fn listed_by(bytes: &[u8], rules: Rules) -> String {
    let mut lines = Vec::new();
    run(bytes, &mut lines, rules).unwrap();
    String::from_utf8(lines).unwrap()
}

fn listed(bytes: &[u8]) -> String {
    listed_by(bytes, Rules::default())
}

/// The lines of a listing, without header and numbers.
fn answers(lines: &str) -> Vec<String> {
    let listing = listed(&encoded(lines));
    let rows = listing.lines().skip(1);
    rows.map(|l| l.split_once(' ').unwrap().1.to_string())
        .collect()
}

fn last_answer(lines: &str) -> String {
    answers(lines).pop().unwrap()
}

/// What `calls` prints for a text.
fn made_by(lines: &str, rules: Rules) -> String {
    let mut printed = Vec::new();
    text::calls(lines.as_bytes(), &mut printed, rules).unwrap();
    String::from_utf8(printed).unwrap()
}

/// The last line of it, without its number.
fn last_made(lines: &str) -> String {
    let printed = made_by(lines, Rules::default());
    let last = printed.lines().last().unwrap();
    last.split_once(' ').unwrap().1.to_string()
}

/// The core after a text's calls.
fn core_after(lines: &str) -> Core {
    let mut core = Core::new(Rules::default());
    let bytes = encoded(lines);
    each_record(&bytes[..], &mut core, |_, _| {}, |_, _| Ok(())).unwrap();
    core
}

fn generated(seed: u64, n: u64, style: Style) -> Vec<u8> {
    let mut bytes = Vec::new();
    generate(seed, n, style, &mut bytes).unwrap();
    bytes
}

const LISTING_CALLS: &str = "
    setup 32
    open 0
    map 0 4 11 3
    translate 0 0 6 1
    translate 0 0 7 1
    translate 0 0 6 1
    unmap 0 6 1
    translate 0 0 6 1   # no longer mapped
    translate 0 0 14 1
    coverage 0
";

#[test]
fn listing() {
    let expected = "record kind answer first second
1 1 0 0 0
2 2 0 0 0
3 4 0 3 0
4 7 0 2 3
5 7 0 3 2
6 7 0 2 1
7 5 0 1 0
8 7 12 0 0
9 7 0 10 3
10 8 0 8000 0
";
    assert_eq!(listed(&encoded(LISTING_CALLS)), expected);
}

// At the edges.

#[test]
fn pool_sizes() {
    assert_eq!(last_answer("setup 0"), "1 4 0 0");
    assert_eq!(last_answer("setup 1"), "1 0 0 0");
    assert_eq!(last_answer("setup 4096"), "1 0 0 0");
    assert_eq!(last_answer("setup 4097"), "1 4 0 0");
    let b = core_after("setup 6").buffers;
    let free = [16386, 8192, 8192, 8192, 16385, 8192, 65535, 65535];
    assert_eq!(b.frames[..8], free);
    let b = core_after("setup 4096").buffers;
    for start in [0, 1024, 2048, 3072] {
        assert_eq!(b.frames[start], 16394);
    }
}

#[test]
fn blocks_taken() {
    let six = "setup 6\nopen 0\nmap 0 0 5 1\n";
    assert_eq!(last_answer(six), "4 0 2 0");
    let b = core_after(six).buffers;
    assert_eq!(b.frames[..7], [1, 2, 3, 4, 5, 16384, 65535]);
    let eleven = "setup 32\nopen 0\nmap 0 4 11 3\n";
    assert_eq!(last_answer(eleven), "4 0 3 0");
    let b = core_after(eleven).buffers;
    for i in 0..11 {
        assert_eq!(frame_of(b.page(0, 4 + i)), i);
    }
    assert_eq!(
        b.frames[11..18],
        [16384, 16386, 8192, 8192, 8192, 16388, 8192]
    );
    assert_eq!(last_answer("setup 6\nopen 0\nmap 0 0 7 1"), "4 14 0 0");
    assert_eq!(last_answer("setup 6\nopen 0\nmap 0 0 6 1"), "4 0 2 0");
}

#[test]
fn spans() {
    let with = |call: &str| last_answer(&format!("setup 32\nopen 0\n{call}"));
    assert_eq!(with("map 0 1023 1 1"), "4 0 1 0");
    assert_eq!(with("map 0 1023 2 1"), "4 8 0 0");
    assert_eq!(with("map 0 1023 0 1"), "4 8 0 0");
    assert_eq!(with("map 0 0 0 1"), "4 8 0 0");
    assert_eq!(with("map 0 65535 65535 1"), "4 8 0 0");
    assert_eq!(with("unmap 0 0 0"), "5 8 0 0");
    assert_eq!(with("protect 0 1024 1 1"), "6 8 0 0");
    assert_eq!(with("translate 0 0 1024 1"), "7 8 0 0");
}

#[test]
fn runs_and_ranges() {
    let table = |maps: &str| {
        let core = core_after(&format!("setup 32\nopen 0\n{maps}"));
        core.buffers.space_ranges(0)[..12].to_vec()
    };
    assert_eq!(table("map 0 0 7 3"), [0; 12]);
    assert_eq!(table("map 0 0 8 3"), [0, 8, 0, 3, 0, 0, 0, 0, 0, 0, 0, 0]);
    let same = "map 0 0 8 3\nmap 0 8 8 3";
    assert_eq!(table(same), [0, 16, 0, 3, 0, 0, 0, 0, 0, 0, 0, 0]);
    let differ = "map 0 0 8 3\nmap 0 8 8 1";
    assert_eq!(table(differ), [0, 8, 0, 3, 8, 16, 0, 1, 0, 0, 0, 0]);
    // OFFSET goes below zero.
    let high = "map 0 1000 8 3";
    let offset = 0u32.wrapping_sub(1000);
    assert_eq!(table(high)[..4], [1000, 1008, offset, 3]);
    let calls = format!("setup 32\nopen 0\n{high}\ntranslate 0 0 1001 1\ntranslate 0 0 1007 1");
    assert_eq!(answers(&calls)[3..], ["7 0 1 3", "7 0 7 2"]);
}

/// A range and a page in the unit, then so many removal records elsewhere.
fn slept(records: usize) -> String {
    let mut lines = String::from(
        "setup 64\nopen 0\nmap 0 0 16 3\nmap 0 100 1 1\ntranslate 0 0 0 1\ntranslate 1 0 3 1\n",
    );
    for _ in 0..records {
        lines += "protect 0 100 1 1\n";
    }
    lines
}

#[test]
fn sixty_four_singly_sixty_five_fresh() {
    let asked = "translate 0 0 0 1\ntranslate 1 0 4 1\n";
    let woken = |n: usize| answers(&(slept(n) + asked))[6 + n..].to_vec();
    assert_eq!(woken(63), ["7 0 0 1", "7 0 4 2"]);
    assert_eq!(woken(64), ["7 0 0 1", "7 0 4 2"]);
    assert_eq!(woken(65), ["7 0 0 3", "7 0 4 3"]);
    assert_eq!(woken(200), ["7 0 0 3", "7 0 4 3"]);
    let unit = core_after(&(slept(65) + asked)).units[0];
    assert_eq!((unit.last, unit.next, unit.seen), (0, 1, 65));
    let unit = core_after(&(slept(64) + asked)).units[0];
    assert_eq!((unit.last, unit.next, unit.seen), (0, 1, 64));
}

#[test]
fn refused_translation_stays_behind() {
    let refused = "translate 0 0 500 1\n".repeat(3);
    let lines = slept(40) + &refused;
    assert_eq!(core_after(&lines).units[0].seen, 0);
    let more = lines + &"protect 0 100 1 1\n".repeat(25) + "translate 0 0 0 1\n";
    assert_eq!(last_answer(&more), "7 0 0 3");
}

#[test]
fn limit_is_not_covered() {
    let lines = "setup 64\nopen 0\nmap 0 0 8 3\nmap 0 8 1 1\ntranslate 0 0 0 1\n";
    let asked = |call: &str| last_answer(&format!("{lines}{call}"));
    assert_eq!(asked("translate 0 0 7 1"), "7 0 7 2");
    assert_eq!(asked("translate 0 0 8 1"), "7 0 8 3");
    assert_eq!(asked("translate 0 0 8 2"), "7 13 0 0");
    assert_eq!(asked("translate 0 0 9 1"), "7 12 0 0");
}

#[test]
fn removal_drops_overlapping_ranges() {
    // The removed page is neither BASE nor translated before.
    let lines = "setup 64\nopen 0\nmap 0 0 32 3\ntranslate 0 0 0 1\nunmap 0 20 1\n";
    let core = core_after(&format!("{lines}translate 0 0 1 1"));
    assert_eq!(last_answer(&format!("{lines}translate 0 0 1 1")), "7 0 1 3");
    assert_eq!(
        last_answer(&format!("{lines}translate 0 0 20 1")),
        "7 12 0 0"
    );
    let unit = core.units[0];
    assert_eq!((unit.last, unit.next), (1, 2));
    assert_eq!(unit.ranges[0], RangeEntry::default());
    assert_eq!(unit.ranges[1].limit, 20);
    assert_eq!(unit.pages[0].valid, 1);
}

#[test]
fn merging_keeps_to_buddies_and_pool() {
    // Frames 1 and 2 are neighbours, not buddies.
    let b = core_after("setup 4\nopen 0\nmap 0 0 4 1\nunmap 0 1 2").buffers;
    assert_eq!(b.frames[..5], [1, 16384, 16384, 4, 65535]);
    // The buddy of 4 (order 1) lies past the pool.
    let b = core_after("setup 6\nopen 0\nmap 0 0 6 1\nunmap 0 4 2").buffers;
    assert_eq!(b.frames[4..7], [16385, 8192, 65535]);
    let b = core_after("setup 6\nopen 0\nmap 0 0 6 1\nclose 0").buffers;
    assert_eq!(b.frames, core_after("setup 6").buffers.frames);
}

#[test]
fn answers_in_order() {
    let base = "setup 16\nopen 0\nopen 1\nmap 0 0 4 5\nmap 0 8 4 0\n";
    let asked = |call: &str| last_answer(&format!("{base}{call}"));
    assert_eq!(asked("open 0"), "2 9 0 0");
    assert_eq!(asked("open 4"), "2 5 0 0");
    assert_eq!(asked("close 2"), "3 10 0 0");
    assert_eq!(asked("close 0"), "3 0 8 0");
    assert_eq!(asked("close 1"), "3 0 0 0");
    assert_eq!(asked("map 4 2000 0 8"), "4 5 0 0");
    assert_eq!(asked("map 2 2000 0 8"), "4 6 0 0");
    assert_eq!(asked("map 2 2000 0 7"), "4 8 0 0");
    assert_eq!(asked("map 2 3 1 7"), "4 10 0 0");
    assert_eq!(asked("map 0 3 100 7"), "4 11 0 0");
    assert_eq!(asked("map 0 12 9 7"), "4 14 0 0");
    assert_eq!(asked("unmap 0 3 2"), "5 12 0 0");
    assert_eq!(asked("protect 0 2 2 5"), "6 0 0 0");
    assert_eq!(asked("protect 0 2 2 1"), "6 0 2 0");
    assert_eq!(asked("translate 2 9 2000 3"), "7 16 0 0");
    assert_eq!(asked("translate 1 9 2000 3"), "7 5 0 0");
    assert_eq!(asked("translate 1 3 2000 3"), "7 7 0 0");
    assert_eq!(asked("translate 1 3 2000 4"), "7 8 0 0");
    assert_eq!(asked("translate 1 3 1 4"), "7 10 0 0");
    assert_eq!(asked("translate 1 1 1 4"), "7 12 0 0");
    assert_eq!(asked("translate 1 0 1 2"), "7 13 0 0");
    assert_eq!(asked("translate 1 0 8 1"), "7 13 0 0");
    assert_eq!(asked("translate 1 0 1 4"), "7 0 1 3");
    assert_eq!(asked("coverage 1"), "8 12 0 0");
    assert_eq!(asked("coverage 2"), "8 10 0 0");
    assert_eq!(asked("coverage 0"), "8 0 0 0");
}

// Coverage to the nearest figure (document 02, change 1).

/// A span of 9 pages; 7, 7, 7 and 2 pages apart from it and from one another.
const NINE_OF_32: &str = "
    setup 64
    open 0
    map 0 0 9 3
    map 0 10 7 3
    map 0 18 7 3
    map 0 26 7 3
    map 0 34 2 3
    coverage 0
";

/// A span of 11 pages; 7, 7 and 7 pages apart.
const ELEVEN_OF_32: &str = "
    setup 64
    open 0
    map 0 0 11 3
    map 0 12 7 3
    map 0 20 7 3
    map 0 28 7 3
    coverage 0
";

/// Spans of 28 and of 7 and 4 pages.
const TWENTY_EIGHT_OF_39: &str = "
    setup 64
    open 0
    map 0 0 28 3
    map 0 29 7 3
    map 0 37 4 3
    coverage 0
";

/// Spans of 11 and of 7, 7, 7 and 7 pages.
const ELEVEN_OF_39: &str = "
    setup 64
    open 0
    map 0 0 11 3
    map 0 12 7 3
    map 0 20 7 3
    map 0 28 7 3
    map 0 36 7 3
    coverage 0
";

/// Pages in ranges and mapped pages of space 0 after a text's calls, by the range
/// table and the frames that are held.
fn in_ranges_and_mapped(lines: &str) -> (u32, u32) {
    let b = core_after(lines).buffers;
    let inside = b.space_ranges(0).chunks(4).map(|r| r[1] - r[0]).sum();
    let mapped = b.frames.iter().filter(|&&w| is_held(w)).count() as u32;
    (inside, mapped)
}

#[test]
fn halves_go_to_the_even_figure() {
    assert_eq!(in_ranges_and_mapped(NINE_OF_32), (9, 32));
    assert_eq!(last_answer(NINE_OF_32), "8 0 2812 0");
    assert_eq!(in_ranges_and_mapped(ELEVEN_OF_32), (11, 32));
    assert_eq!(last_answer(ELEVEN_OF_32), "8 0 3438 0");
    assert_eq!(in_ranges_and_mapped(LISTING_CALLS), (8, 10));
    assert_eq!(last_answer(LISTING_CALLS), "8 0 8000 0");
}

#[test]
fn beside_a_half_the_nearest_figure() {
    // 7179.48.. and 2820.51..: the even neighbours are the farther ones.
    assert_eq!(in_ranges_and_mapped(TWENTY_EIGHT_OF_39), (28, 39));
    assert_eq!(last_answer(TWENTY_EIGHT_OF_39), "8 0 7179 0");
    assert_eq!(in_ranges_and_mapped(ELEVEN_OF_39), (11, 39));
    assert_eq!(last_answer(ELEVEN_OF_39), "8 0 2821 0");
    // 8543.4995.. and 1456.5004.., as near as coverage comes to a half.
    let rules = Rules::default();
    assert_eq!(figure(874, 1023, &rules), 8543);
    assert_eq!(figure(149, 1023, &rules), 1457);
    // In parts of 1 / (2 × mapped) a half is `mapped` of them: one fewer, one more.
    let mut beside = 0;
    for mapped in 1..=1024 {
        for inside in 0..=mapped {
            let parts = 20_000 * inside % (2 * mapped);
            let whole = (20_000 * inside - parts) / (2 * mapped);
            if parts + 1 == mapped {
                assert_eq!(figure(inside, mapped, &rules), whole);
                beside += 1;
            }
            if parts == mapped + 1 {
                assert_eq!(figure(inside, mapped, &rules), whole + 1);
                beside += 1;
            }
        }
    }
    assert!(beside > 500, "{beside}");
}

#[test]
fn figures_both_ways() {
    let rules = Rules::default();
    for mapped in 1..=1024 {
        for inside in 0..=mapped {
            let f = figure(inside, mapped, &rules);
            assert_eq!(f, nearest(inside, mapped), "{inside} of {mapped}");
            // No figure is nearer: it is off by half a figure at most.
            let (is, meant) = (2 * f * mapped, 20_000 * inside);
            assert!(is.abs_diff(meant) <= mapped);
            // The counts of pages tell the halves, and where they go.
            let goes = match (is + mapped == meant, is == meant + mapped) {
                (true, _) => Some(Half::Down),
                (_, true) => Some(Half::Up),
                _ => None,
            };
            assert_eq!(half(inside, mapped), goes, "{inside} of {mapped}");
            assert!(goes.is_none() || f % 2 == 0);
        }
    }
}

#[test]
fn halves_are_counted() {
    let halves = |lines: &str| {
        let s = counted(&encoded(lines));
        (s.half_down, s.half_up)
    };
    assert_eq!(halves(NINE_OF_32), (1, 0));
    assert_eq!(halves(ELEVEN_OF_32), (0, 1));
    for lines in [TWENTY_EIGHT_OF_39, ELEVEN_OF_39, LISTING_CALLS] {
        assert_eq!(halves(lines), (0, 0));
    }
    // Accepted coverage of the space asked, and no other call.
    let more = "open 1\ncoverage 1\ncoverage 4\nmap 1 0 8 3\ncoverage 1\nprotect 0 0 9 3\n";
    assert_eq!(halves(&format!("{NINE_OF_32}{more}")), (1, 0));
    assert_eq!(halves(&format!("{NINE_OF_32}{more}coverage 0")), (2, 0));
}

// A preview of map (document 02, change 2).

const PREVIEW_CALLS: &str = include_str!("../../tests/hard/preview.calls");
const PREVIEW_LINES: &str = include_str!("../../tests/hard/preview.lines");
const SV39_CALLS: &str = include_str!("../../tests/hard/sv39.calls");
const SV39_LINES: &str = include_str!("../../tests/hard/sv39.lines");

#[test]
fn stored_previews() {
    assert_eq!(made_by(PREVIEW_CALLS, Rules::default()), PREVIEW_LINES);
}

#[test]
fn previews_by_hand() {
    let after = |calls: &str, asked: &str| {
        last_made(&format!("setup 32\nopen 0\n{calls}\npreview {asked}"))
    };
    // Blocks of 8, 2 and 1 in one range; of 4, 2 and 1 in none.
    assert_eq!(after("", "0 4 11 3"), "preview 0 3 1");
    assert_eq!(after("", "0 0 7 3"), "preview 0 3 0");
    // A gap between two ranges gets its own frames back and joins them.
    let gap = "map 0 0 24 3\nunmap 0 8 8";
    assert_eq!(after(gap, "0 8 8 3"), "preview 0 1 1");
    assert_eq!(after(gap, "0 8 8 1"), "preview 0 1 3");
    // The eighth page of a run.
    assert_eq!(after("map 0 0 7 3", "0 7 1 3"), "preview 0 1 1");
    assert_eq!(after("map 0 0 7 3", "0 7 1 1"), "preview 0 1 0");
    // Frames 0, 2 and 4 are free: a block each, and pages 5 to 31 are a range.
    let apart = "map 0 0 32 3\nunmap 0 0 1\nunmap 0 2 1\nunmap 0 4 1";
    assert_eq!(after(apart, "0 100 3 3"), "preview 0 3 1");
    // The ranges of one space are none of another's.
    let beside = "map 0 0 8 3\nmap 0 100 8 3\nopen 1";
    assert_eq!(after(beside, "1 0 8 3"), "preview 0 1 1");
    assert_eq!(after(beside, "0 200 8 3"), "preview 0 1 3");
}

#[test]
fn long_runs_by_hand() {
    // Spans as first page, pages, first frame, rights.
    let counted = |spans: &[(usize, u32, u32, u32)]| {
        let mut pages = vec![0; SPAN];
        for &(first, count, frame, rights) in spans {
            for i in 0..count {
                pages[first + i as usize] = page_word(frame + i, rights);
            }
        }
        let bare = long_runs(&pages);
        // Range bits say nothing.
        for word in pages.iter_mut().filter(|w| **w != 0).step_by(3) {
            *word |= IN_RANGE;
        }
        assert_eq!(long_runs(&pages), bare);
        bare
    };
    assert_eq!(counted(&[]), 0);
    assert_eq!(counted(&[(0, 7, 0, 3)]), 0);
    assert_eq!(counted(&[(0, 8, 0, 3)]), 1);
    assert_eq!(counted(&[(1016, 8, 4088, 0)]), 1);
    assert_eq!(counted(&[(1017, 7, 4089, 0)]), 0);
    assert_eq!(counted(&[(0, 1024, 9, 7)]), 1);
    assert_eq!(counted(&[(4, 8, 0, 3), (12, 8, 8, 3)]), 1);
    assert_eq!(counted(&[(4, 8, 0, 3), (12, 8, 8, 1)]), 2);
    assert_eq!(counted(&[(4, 8, 8, 3), (12, 8, 0, 3)]), 2);
    assert_eq!(counted(&[(4, 8, 0, 3), (12, 7, 0, 3)]), 1);
    assert_eq!(counted(&[(4, 8, 0, 3), (13, 8, 9, 3)]), 2);
}

#[test]
fn calls_answer_as_run() {
    for style in STYLES {
        let lines = decoded(&generated(31, 500, style));
        let calls: Vec<&str> = lines.lines().filter(|l| !l.starts_with("raw")).collect();
        let calls = calls.join("\n");
        let named: Vec<String> = (1..)
            .zip(listed(&encoded(&calls)).lines().skip(1))
            .map(|(number, line)| {
                let (kind, rest) = line.split_once(' ').unwrap().1.split_once(' ').unwrap();
                format!("{number} {} {rest}", NAMES[kind.parse::<usize>().unwrap()])
            })
            .collect();
        let printed = made_by(&calls, Rules::default());
        assert_eq!(printed.lines().skip(1).collect::<Vec<&str>>(), named);
    }
    // Comments and blank lines are counted, a unit above 1 makes no call.
    let lines = "# none\n\n setup 8 # all\n\ntranslate 2 0 0 1\n";
    let expected = "line call answer first second\n3 setup 0 0 0\n5 translate 16 0 0\n";
    assert_eq!(made_by(lines, Rules::default()), expected);
}

/// What a preview of the map just made had to say: its answer, with the ranges
/// that it left.
fn with_ranges(mapped: Outcome, b: &Buffers, space: u32) -> Outcome {
    mapped.map(|(blocks, _)| (blocks, long_runs(b.space_pages(space))))
}

/// Some pages from the start of a gap on, or the whole gap, with the rights of
/// the page before; once in a while with an odd number.
fn some_span(random: &mut Random, b: &Buffers) -> [u32; 4] {
    let space = random.below(4) as u32;
    let pages = b.space_pages(space);
    let from = 1 + random.below(1023) as usize;
    let first = (from..SPAN)
        .chain(1..from)
        .find(|&page| pages[page] == 0 && pages[page - 1] != 0)
        .unwrap_or(from);
    let gap = pages[first..].iter().take_while(|&&w| w == 0).count() as u32;
    let count = match random.one_in(2) {
        true => gap,
        false => 1 + random.below(30) as u32,
    };
    let mut args = [space, first as u32, count, rights_of(pages[first - 1])];
    if random.one_in(6) {
        let odd = [0, 2, 3, 4, 6, 7, 8, 1023, 1024, u32::MAX];
        args[random.below(4) as usize] = random.pick(&odd);
    }
    args
}

/// Takes pages out of a long range, so that a range is left on both sides; gives
/// their span with its rights.
fn part_taken_out(random: &mut Random, b: &mut Buffers) -> Option<[u32; 4]> {
    let space = random.below(4) as u32;
    let count = 1 << random.below(4);
    let ranges = b.space_ranges(space).chunks_exact(4);
    let long: Vec<&[u32]> = ranges.filter(|r| r[1] - r[0] >= 16 + count).collect();
    if long.is_empty() {
        return None;
    }
    let [base, limit, _, rights] = *random.pick(&long) else {
        unreachable!()
    };
    let first = base + 8 + random.below((limit - base - 15 - count) as u64) as u32;
    tables::unmap(b, space, first, count).unwrap();
    Some([space, first, count, rights])
}

#[test]
fn preview_is_map_on_a_copy() {
    let rules = Rules::default();
    let mut random = Random(71);
    let mut numbers = [0; ANSWERS];
    // Fewer ranges afterwards, as many, more; more blocks than ranges.
    let mut cases = [0; 4];
    let mut core = Core::new(rules);
    for round in 0..3000u64 {
        if round % 30 == 0 {
            core = some_core(round, 200 + round / 30, STYLES[(round / 30 % 5) as usize]);
        }
        let mut b = core.buffers.clone();
        let taken_out = match random.one_in(4) {
            true => part_taken_out(&mut random, &mut b),
            false => None,
        };
        let args = taken_out.unwrap_or_else(|| some_span(&mut random, &b));
        let at = random.below(2048) as usize;
        match random.below(20) {
            0 => b.ranges.truncate(at),
            1 => disturb(&mut random, &mut b.pages[at]),
            _ => {}
        }
        let (lent, mut unit) = (b.clone(), core.units[0]);
        let tried = state::perform(10, &mut b, &mut unit, args, &rules).unwrap();
        assert!(b == lent && unit == core.units[0], "{args:?}");

        let [space, first, count, rights] = args;
        let mapped = tables::map(&mut b, space, first, count, rights, &rules);
        assert_eq!(tried, with_ranges(mapped, &b, space), "{args:?}");
        numbers[tried.err().unwrap_or(0) as usize] += 1;
        if let Ok((blocks, ranges)) = tried {
            let before = long_runs(lent.space_pages(space));
            cases[(ranges.cmp(&before) as i32 + 1) as usize] += 1;
            cases[3] += (blocks > ranges) as u32;
        }
    }
    for number in [0, 1, 2, 5, 6, 8, 10, 11, 14, 17] {
        assert!(numbers[number] > 0, "no {number}: {numbers:?}");
    }
    assert_eq!(
        numbers.iter().filter(|&&n| n > 0).count(),
        10,
        "{numbers:?}"
    );
    assert!(cases.iter().all(|&n| n > 0), "{cases:?}");
}

// Grow a range in its own place (document 02, change 6).

const GROW_CALLS: &str = include_str!("../../tests/hard/grow.trace");

/// The planted bugs of wished frames.
const WISH_BUGS: [&str; 8] = [
    "ignored",
    "unaligned",
    "past",
    "one-free",
    "smaller",
    "first-only",
    "across",
    "same-rights",
];

/// Frames of the pages that a map after a text's calls gives, and what became of the
/// wishes of its blocks.
fn placed_by(lines: &str, map: &str, rules: Rules) -> (Vec<u32>, Vec<Wish>) {
    let mut core = core_after(lines);
    let args: Vec<u32> = map.split(' ').map(|n| n.parse().unwrap()).collect();
    let [space, first, count, rights] = args[..] else {
        unreachable!()
    };
    let b = &mut core.buffers;
    let blocks = tables::map_blocks(b, space, first, count, rights, &rules).unwrap();
    let frames = (first..first + count).map(|page| frame_of(b.page(space, page)));
    (frames.collect(), blocks.iter().map(|t| t.wish).collect())
}

fn placed(lines: &str, map: &str) -> (Vec<u32>, Vec<Wish>) {
    placed_by(lines, map, Rules::default())
}

/// Pages 0 to 7 have frames 0 to 7 and pages 100 to 107 frames 8 to 15: neither span
/// has a mapped page before it, so the old choice stands, the lowest of the smallest
/// blocks that serve. Frames 16 to 31 are one free block.
const TWO_BUFFERS: &str = "setup 32\nopen 0\nmap 0 0 8 3\nmap 0 100 8 3\n";

/// Beside those, frames 0 to 7 are a free block of order 3.
const LOWER_FREE: &str = "setup 32\nopen 0\nmap 0 0 8 3\nmap 0 100 8 3\nunmap 0 0 8\n";

/// Blocks of order 2 and 0: frames 0 to 4. Free blocks are 5 (order 0), 6 (order 1),
/// 8 (order 3) and 16 (order 4).
const FIVE: &str = "setup 32\nopen 0\nmap 0 0 5 3\n";

/// The free blocks of 14 frames are 0 (order 3), 8 (order 2) and 12 (order 1). The
/// first goes to pages 0 to 7, the second to pages 100 to 103; then the first is free
/// again.
const NEAR_F: &str = "setup 14\nopen 0\nmap 0 0 8 3\nmap 0 100 4 3\nunmap 0 0 8\n";

/// Pages 0 to 3 have frames 0 to 3, pages 101 to 103 frames 5 to 7. Free blocks are
/// 4 (order 0) and 8 (order 3).
const ONE_FREE: &str = "setup 16\nopen 0\nmap 0 0 4 3\nmap 0 100 4 3\nunmap 0 100 1\n";

/// Pages 1,022 and 1,023 of space 0 have frames 2 and 3. Free blocks are 0 (order 1),
/// 4 (order 2) and 8 (order 3).
const LAST_PAGE: &str = "setup 16\nopen 0\nopen 1\nmap 0 1020 4 3\nunmap 0 1020 2\n";

#[test]
fn a_wish_is_met() {
    // "the one after the frame of the page just before the span": page 107 has frame
    // 15. The order is 3, and the block of order 3 at 16 "lies in the pool and is wholly
    // free", so "it is taken". The old choice is the smallest block that serves, 0.
    let (frames, wishes) = placed(LOWER_FREE, "0 108 8 3");
    assert_eq!(frames, Vec::from_iter(16..24));
    assert_eq!(wishes, [Wish::MetOther]);
    // So one range of 16 pages has grown, where the old choice would have made two.
    let core = core_after(&format!("{LOWER_FREE}map 0 108 8 3"));
    let range = [100, 116, 0u32.wrapping_sub(92), 3, 0];
    assert_eq!(core.buffers.space_ranges(0)[..5], range);
    // The preview follows.
    let asked = format!("{LOWER_FREE}preview 0 108 8 3");
    assert_eq!(last_made(&asked), "preview 0 1 1");
    let ignored = made_by(&asked, Rules::with_bug("ignored").unwrap());
    assert!(ignored.ends_with(" preview 0 1 2\n"));
    // The page before counts "if mapped"; nothing is said of its rights.
    let (frames, wishes) = placed(LOWER_FREE, "0 108 8 1");
    assert_eq!(frames, Vec::from_iter(16..24));
    assert_eq!(wishes, [Wish::MetOther]);
    // Without the lower block the old choice is 16 too.
    let (frames, wishes) = placed(TWO_BUFFERS, "0 108 8 3");
    assert_eq!(frames, Vec::from_iter(16..24));
    assert_eq!(wishes, [Wish::MetSame]);
}

#[test]
fn a_wish_at_no_multiple() {
    // Two pages: order 1. The wish is 5, and a block of order 1 starts at a multiple of
    // 2. So "the old choice stands": 6, the smallest block that serves. Frame 5 is free,
    // and is not tried as a block of order 0.
    let (frames, wishes) = placed(FIVE, "0 5 2 3");
    assert_eq!((frames, wishes), (vec![6, 7], vec![Wish::NoMultiple]));
    // "Each order is chosen by the old rule": 16 pages are one block of order 4, which
    // is at 16 alone. Smaller ones from the wished frame 4 on would join the range.
    let (frames, wishes) = placed("setup 32\nopen 0\nmap 0 0 4 3\n", "0 4 16 3");
    assert_eq!(frames, Vec::from_iter(16..32));
    assert_eq!(wishes, [Wish::NoMultiple]);
    // A single page has any frame as a multiple.
    let (frames, wishes) = placed(FIVE, "0 5 1 3");
    assert_eq!((frames, wishes), (vec![5], vec![Wish::MetSame]));
}

#[test]
fn a_wish_past_the_pool() {
    // Four pages: order 2. The wish is 12, a multiple of 4; 12 and 13 are free, but 14
    // and 15 do not lie in the pool. The old choice: 0, the one block that serves.
    let (frames, wishes) = placed(NEAR_F, "0 104 4 3");
    assert_eq!((frames, wishes), (vec![0, 1, 2, 3], vec![Wish::Past]));
    // Two pages: 12 and 13 end just at F.
    let (frames, wishes) = placed(NEAR_F, "0 104 2 3");
    assert_eq!((frames, wishes), (vec![12, 13], vec![Wish::MetSame]));
    // Then the wish is F itself.
    let full = format!("{NEAR_F}map 0 104 2 3\n");
    let (frames, wishes) = placed(&full, "0 106 1 3");
    assert_eq!((frames, wishes), (vec![0], vec![Wish::Past]));
    // No frame word stands there where F is 4,096.
    let mut b = core_after("setup 4096").buffers;
    for wished in [4096, u32::MAX] {
        let taken = pool::take(
            &mut b.frames.clone(),
            4096,
            1,
            Some(wished),
            &Rules::default(),
        );
        assert_eq!((taken.len(), taken[0].start), (1, 0));
        assert_eq!(taken[0].wish, Wish::Past);
    }
    let last = pool::take(&mut b.frames, 4096, 2, Some(4095), &Rules::default());
    assert_eq!((last.len(), last[0].wish), (1, Wish::NoMultiple));
}

#[test]
fn a_wish_that_is_held() {
    // Four pages: order 2. The wish is 8, a multiple of 4, which page 100 holds: not
    // "wholly free". The old choice: 16.
    let (frames, wishes) = placed(TWO_BUFFERS, "0 8 4 3");
    assert_eq!(
        (frames, wishes),
        (vec![16, 17, 18, 19], vec![Wish::FirstHeld])
    );
    // Two pages: order 1. The wish is 4, a multiple of 2, and free, but page 101 holds
    // frame 5. The old choice: 8.
    let (frames, wishes) = placed(ONE_FREE, "0 4 2 3");
    assert_eq!((frames, wishes), (vec![8, 9], vec![Wish::LaterHeld]));
    // One page: frame 4 is a whole block.
    let (frames, wishes) = placed(ONE_FREE, "0 4 1 3");
    assert_eq!((frames, wishes), (vec![4], vec![Wish::MetSame]));
}

#[test]
fn a_block_without_a_wish() {
    // Page 0 of space 1 has no page just before it, so there is no wish, and the old
    // choice stands: the lower half of 0. Page 1,023 of space 0 has frame 3, and 4 is
    // free.
    let (frames, wishes) = placed(LAST_PAGE, "1 0 1 3");
    assert_eq!((frames, wishes), (vec![0], vec![Wish::None]));
    let (frames, wishes) = placed(LAST_PAGE, "0 0 1 3");
    assert_eq!((frames, wishes), (vec![0], vec![Wish::None]));
    // Page 1,021 of space 0 is not mapped any more, page 7 of space 0 never was.
    for map in ["0 1021 1 3", "0 8 1 3"] {
        let (frames, wishes) = placed(LAST_PAGE, map);
        assert_eq!((frames, wishes), (vec![0], vec![Wish::None]), "{map}");
    }
    // A page after the span says nothing: page 1,022 has frame 2.
    let (frames, wishes) = placed(LAST_PAGE, "0 1020 2 3");
    assert_eq!((frames, wishes), (vec![0, 1], vec![Wish::None]));
}

#[test]
fn the_wish_of_a_later_block() {
    // Three pages: orders 1 and 0. The first wish, 5, is no multiple of 2, so the first
    // block is 6. The second wish is "the one after the preceding block": 8, which is
    // free. The old choice would be 5, the only block of order 0.
    let (frames, wishes) = placed(FIVE, "0 5 3 3");
    assert_eq!(frames, [6, 7, 8]);
    assert_eq!(wishes, [Wish::NoMultiple, Wish::MetOther]);
    // A call's first block without a wish leaves the others theirs: 8, 2 and 1 pages,
    // each block after the one before, where the old choice goes too.
    let (frames, wishes) = placed("setup 32\nopen 0\n", "0 4 11 3");
    assert_eq!(frames, Vec::from_iter(0..11));
    assert_eq!(wishes, [Wish::None, Wish::MetSame, Wish::MetSame]);
    // Pages 108 to 115 have 16 to 23. 16 more, but the free blocks are 0 and 24, both of
    // order 3: the first block is taken at its wish, 24; the second wishes 32, past the
    // pool, and goes to 0.
    let lines = format!("{LOWER_FREE}map 0 108 8 3\n");
    let (frames, wishes) = placed(&lines, "0 116 16 3");
    assert_eq!(frames, Vec::from_iter((24..32).chain(0..8)));
    assert_eq!(wishes, [Wish::MetOther, Wish::Past]);
}

#[test]
fn wishes_are_counted() {
    let counts = |lines: &str| counted(&encoded(lines)).wishes;
    assert_eq!(counts(LISTING_CALLS), [1, 0, 2, 0, 0, 0, 0]);
    assert_eq!(counts(LOWER_FREE), [2, 0, 0, 0, 0, 0, 0]);
    let with = |lines: &str, map: &str| counts(&format!("{lines}map {map}"));
    assert_eq!(with(LOWER_FREE, "0 108 8 1"), [2, 1, 0, 0, 0, 0, 0]);
    assert_eq!(with(TWO_BUFFERS, "0 108 8 1"), [2, 0, 1, 0, 0, 0, 0]);
    assert_eq!(with(FIVE, "0 5 3 3"), [1, 1, 1, 1, 0, 0, 0]);
    assert_eq!(with(NEAR_F, "0 104 4 3"), [2, 0, 0, 0, 1, 0, 0]);
    assert_eq!(with(TWO_BUFFERS, "0 8 4 3"), [2, 0, 0, 0, 0, 1, 0]);
    assert_eq!(with(ONE_FREE, "0 4 2 3"), [2, 0, 0, 0, 0, 0, 1]);
    // Of accepted maps alone.
    for map in [
        "0 108 8 2",
        "0 104 4 3",
        "0 108 99 3",
        "1 0 1 3",
        "0 1023 2 3",
    ] {
        assert_eq!(with(LOWER_FREE, map), [2, 0, 0, 0, 0, 0, 0], "{map}");
    }
}

#[test]
fn stored_growth() {
    // Worked out beside the lines of the file.
    let expected = "1 0 0 0
2 0 0 0
4 0 1 0
4 0 1 0
5 0 4 0
4 0 1 0
7 0 16 3
4 0 1 0
7 0 0 3
5 0 1 0
4 0 1 0
7 0 20 3
4 0 1 0
7 0 4 3
8 0 5455 0
1 0 0 0
2 0 0 0
2 0 0 0
4 0 1 0
5 0 2 0
4 0 1 0
7 0 0 3
4 0 2 0
7 0 4 3
7 0 6 3
4 0 1 0
7 0 8 3
4 0 1 0
7 0 10 3";
    assert_eq!(answers(GROW_CALLS), Vec::from_iter(expected.lines()));
    let wishes = counted(&encoded(GROW_CALLS)).wishes;
    assert_eq!(wishes, [4, 3, 0, 2, 1, 1, 1]);
    for bug in WISH_BUGS {
        let (bytes, rules) = (encoded(GROW_CALLS), Rules::with_bug(bug).unwrap());
        assert_ne!(listed(&bytes), listed_by(&bytes, rules), "{bug}");
    }
}

// Write without read is reserved (document 02, change 4).

const ALLOWED: [u32; 6] = [0, 1, 3, 4, 5, 7];
const RESERVED: [u32; 2] = [2, 6];
/// Above 7; the last three bits of some are reserved rights.
const TOO_GREAT: [u32; 6] = [8, 10, 14, 65530, 65534, u32::MAX - 1];

/// The outcome of a call by its number, with the core's first unit, and what it
/// leaves; a refused one leaves everything as it was.
fn left_by(core: &Core, command: u32, args: [u32; 4], rules: &Rules) -> (Outcome, Buffers, Unit) {
    let (mut b, mut unit) = (core.buffers.clone(), core.units[0]);
    let outcome = state::perform(command, &mut b, &mut unit, args, rules).unwrap();
    if outcome.is_err() {
        let same = b == core.buffers && unit == core.units[0];
        assert!(same, "{command} {args:?}");
    }
    (outcome, b, unit)
}

/// Its answer by the right rules.
fn answer_of(core: &Core, command: u32, args: [u32; 4]) -> u32 {
    numbers(left_by(core, command, args, &Rules::default()).0)[0]
}

#[test]
fn rights_one_by_one() {
    for rights in (0..300).chain(TOO_GREAT).chain([u32::MAX]) {
        assert_eq!(rights_allowed(rights), ALLOWED.contains(&rights));
        assert_eq!(allowed(rights), ALLOWED.contains(&rights));
    }
}

#[test]
fn reserved_rights_are_refused() {
    let asked = |call: &str, rights: u32| {
        last_made(&format!("setup 16\nopen 0\nmap 0 0 4 5\n{call} {rights}"))
    };
    for rights in RESERVED {
        assert_eq!(asked("map 0 8 2", rights), "map 17 0 0");
        assert_eq!(asked("protect 0 0 2", rights), "protect 17 0 0");
        assert_eq!(asked("preview 0 8 2", rights), "preview 17 0 0");
    }
    for rights in [8, 9, 10, 14, 65530, 65534, 65535] {
        assert_eq!(asked("map 0 8 2", rights), "map 6 0 0");
        assert_eq!(asked("protect 0 0 2", rights), "protect 6 0 0");
        assert_eq!(asked("preview 0 8 2", rights), "preview 6 0 0");
    }
    for rights in ALLOWED {
        assert_eq!(asked("map 0 8 2", rights), "map 0 1 0");
        assert_eq!(asked("preview 0 8 2", rights), "preview 0 1 0");
        let changed = if rights == 5 { 0 } else { 2 };
        let expected = format!("protect 0 {changed} 0");
        assert_eq!(asked("protect 0 0 2", rights), expected);
    }
}

#[test]
fn seventeen_in_order() {
    // 12 frames are free, spaces 2 and 3 closed.
    let core = core_after("setup 16\nopen 0\nopen 1\nmap 0 0 4 5\n");
    // A span for map and for preview, or one for protect, and its own refusal.
    let maps = [
        ([0, 8, 0], 8),
        ([0, 1023, 2], 8),
        ([3, u32::MAX, u32::MAX], 8),
        ([2, 8, 1], 10),
        ([0, 3, 1], 11),
        ([0, 3, 100], 11),
        ([0, 8, 13], 14),
    ];
    let protects = [
        ([0, 0, 0], 8),
        ([0, 1020, 5], 8),
        ([2, 0, 1], 10),
        ([0, 3, 2], 12),
        ([1, 0, 1], 12),
    ];
    let asked = [(4, &maps[..]), (10, &maps[..]), (6, &protects[..])];
    for (command, spans) in asked {
        for &([space, first, count], refusal) in spans {
            let answer = |space, rights| answer_of(&core, command, [space, first, count, rights]);
            for rights in ALLOWED {
                assert_eq!(answer(space, rights), refusal, "{command} {rights}");
                assert_eq!(answer(4, rights), 5);
            }
            for rights in RESERVED {
                assert_eq!(answer(space, rights), 17, "{command} {refusal}");
                assert_eq!(answer(4, rights), 5);
                assert_eq!(answer(u32::MAX, rights), 5);
            }
            for rights in TOO_GREAT {
                assert_eq!(answer(space, rights), 6, "{command} {refusal}");
                assert_eq!(answer(4, rights), 5);
            }
        }
    }

    // No record can be appended any more.
    let mut full = core_after(&slept(64));
    full.buffers.control[1] = u32::MAX;
    for rights in ALLOWED {
        assert_eq!(answer_of(&full, 6, [0, 100, 1, rights]), 15);
    }
    for rights in RESERVED {
        assert_eq!(answer_of(&full, 6, [0, 100, 1, rights]), 17);
    }

    // Unsound tables come first, wrong lengths before them.
    let mut unsound = core_after("setup 16\nopen 0\nmap 0 0 4 5\n");
    unsound.buffers.pages[9] = 7;
    for command in [4, 6, 10] {
        assert_eq!(answer_of(&unsound, command, [0, 0, 4, 2]), 2);
        assert_eq!(answer_of(&unsound, command, [0, 0, 4, 6]), 2);
    }
    unsound.buffers.ranges.pop();
    for command in [4, 6, 10] {
        assert_eq!(answer_of(&unsound, command, [0, 0, 4, 2]), 1);
        assert_eq!(answer_of(&unsound, command, [0, 0, 4, 6]), 1);
    }
}

#[test]
fn allowed_rights_are_held() {
    for rights in ALLOWED {
        let lines = format!("setup 32\nopen 0\nmap 0 0 8 {rights}\nmap 0 20 1 {rights}\n");
        let b = core_after(&lines).buffers;
        assert_eq!(b.page(0, 0), 65536 + 32768 + 4096 * rights);
        assert_eq!(b.page(0, 20), 65536 + 4096 * rights + 8);
        assert_eq!(b.space_ranges(0)[..8], [0, 8, 0, rights, 0, 0, 0, 0]);
        for before in ALLOWED {
            let lines = format!(
                "setup 32\nopen 0\nmap 0 0 8 {before}\nmap 0 20 1 {before}
                protect 0 0 8 {rights}\nprotect 0 20 1 {rights}\n"
            );
            let protected = core_after(&lines).buffers;
            assert_eq!(protected.pages, b.pages);
            assert_eq!(protected.ranges, b.ranges);
        }
        // Write is asked for by itself, as read and execute are: by page word,
        // range entry, page entry, and by the word of a page in no range.
        for access in [1, 2, 4] {
            let asked = [0, 1, 0, 20].map(|page| format!("translate 0 0 {page} {access}"));
            let found = answers(&format!("{lines}{}", asked.join("\n")));
            let expected = match rights & access != 0 {
                true => ["7 0 0 3", "7 0 1 2", "7 0 0 1", "7 0 8 3"],
                false => ["7 13 0 0"; 4],
            };
            assert_eq!(found[4..], expected, "{rights} {access}");
        }
        for access in [0, 3, 5, 6, 7, 8] {
            let asked = last_answer(&format!("{lines}translate 0 0 0 {access}"));
            assert_eq!(asked, "7 7 0 0");
        }
    }
}

/// Spans of 16, 5 and 8 pages; the first and the last are ranges.
const THREE_SPANS: &str = "
    setup 64
    open 0
    open 2
    map 0 1 16 3
    map 0 100 5 1
    map 2 1016 8 7
";

#[test]
fn reserved_rights_are_unsound() {
    let plain = Plain::read(&core_after(THREE_SPANS).buffers).unwrap();
    let sound = plain.words();
    assert!(judge(&sound).is_ok());

    // Pages that get other rights, with range bits and entries to match: whole
    // ranges, half of one, single pages of one, and pages in no range.
    let spans = [
        (0, 1, 16),
        (2, 1016, 8),
        (0, 9, 8),
        (0, 1, 1),
        (0, 16, 1),
        (0, 100, 5),
        (0, 102, 1),
    ];
    for (space, first, count) in spans {
        for rights in 0..8 {
            let mut given = plain.clone();
            given.protect(space, first, count, rights);
            let b = given.words();
            // A page that keeps its rights stays in its range.
            if !allowed(rights) {
                assert_eq!(in_range(b.page(space, first)), count >= 8);
            }
            let refusal = (!allowed(rights)).then_some(2);
            assert_eq!(judge(&b).err(), refusal, "{space} {first} {count} {rights}");
            assert_eq!(Plain::read(&b).is_none(), !allowed(rights));
        }
    }

    let unsound = |alter: &dyn Fn(&mut Buffers)| {
        let mut b = sound.clone();
        alter(&mut b);
        assert!(Plain::read(&b).is_none());
        judge(&b).err() == Some(2)
    };
    let given = |word: u32, rights: u32| word & !(7 << 12) | rights << 12;
    for rights in RESERVED {
        // One word alone, with a range bit and without.
        for page in [1, 5, 16, 100, 104, 2 * SPAN + 1023] {
            assert!(unsound(&|b| b.pages[page] = given(b.pages[page], rights)));
        }
        // All pages of a range but not its entry, and the entry but no page.
        assert!(unsound(&|b| b.pages[1..17]
            .iter_mut()
            .for_each(|w| *w = given(*w, rights))));
        for entry in [0, 2 * TABLE] {
            assert!(unsound(&|b| b.ranges[entry + 3] = rights));
        }
    }
}

#[test]
fn a_pool_that_holds_reserved_rights_stays_refused() {
    // Each is accepted where the page has other rights.
    let calls = [
        (2, [1, 0, 0, 0]),
        (3, [0, 0, 0, 0]),
        (3, [2, 0, 0, 0]),
        (4, [0, 200, 1, 3]),
        (5, [0, 102, 1, 0]),
        (6, [0, 102, 1, 1]),
        (7, [0, 1, 1, 0]),
        (8, [0, 0, 0, 0]),
        (10, [0, 200, 1, 3]),
    ];
    for rights in 0..8 {
        let mut plain = Plain::read(&core_after(THREE_SPANS).buffers).unwrap();
        plain.protect(0, 102, 1, rights);
        let mut core = Core::new(Rules::default());
        core.buffers = plain.words();
        let expected = if allowed(rights) { 0 } else { 2 };
        for (command, args) in calls {
            assert_eq!(answer_of(&core, command, args), expected, "{command}");
        }
        // Set-up looks at no words.
        assert_eq!(tables::set_up_pool(&mut core.buffers, 64), Ok((0, 0)));
        assert_eq!(core.buffers, core_after("setup 64").buffers);
    }
}

#[test]
fn reserved_rights_make_a_unit_malformed() {
    for removals in [0, 1, 64, 65] {
        // Page 5 is in both entries of the unit, and records drop them; a unit is
        // judged before it catches up.
        let lines = String::from("setup 64\nopen 0\nmap 0 0 16 3\nmap 0 40 1 1\n");
        let lines = lines + "translate 0 0 5 1\n" + &"protect 0 5 1 1\n".repeat(removals);
        let core = core_after(&lines);
        let ask = |unit: &mut Unit, args: [u32; 3]| {
            let [space, page, access] = args;
            unit::translate(&core.buffers, unit, space, page, access, &Rules::default())
        };
        for rights in (0..10).chain(TOO_GREAT) {
            for (page, range) in [(true, false), (false, true), (true, true)] {
                let mut unit = core.units[0];
                if page {
                    unit.pages[5].rights = rights;
                }
                if range {
                    unit.ranges[0].rights = rights;
                }
                assert_eq!(unit.sound(&Rules::default()), allowed(rights), "{rights}");
                assert_eq!(unit_kept(&unit), allowed(rights), "{rights}");
                let lent = unit;
                // Of a page that neither entry has.
                let found = ask(&mut unit, [0, 40, 1]);
                if allowed(rights) {
                    assert_eq!(found, Ok((16, 3)));
                } else {
                    assert_eq!(found, Err(2));
                    assert_eq!(ask(&mut unit, [9, 2000, 9]), Err(2));
                    assert_eq!(unit, lent);
                    unit.seen = removals as u32 + 1;
                    assert_eq!(ask(&mut unit, [0, 40, 1]), Err(2));
                }
                assert_eq!(unit::set_up_unit(&mut unit), Ok((0, 0)));
                assert_eq!(unit, Unit::fresh());
            }
        }
    }
}

// Page words to and from Sv39 entries (document 02, change 5).

/// Page words with their entries, worked by hand.
const BY_HAND: [(u32, u64); 7] = [
    (0, 0),
    // Read, frame 0: V, R, A and D are set.
    (69_632, 0xc3),
    // Read and write, frame 5, in no range and in one.
    (77_829, 0x14c7),
    (110_597, 0x15c7),
    // Read and execute, frame 1.
    (86_017, 0x4cb),
    // Execute, the last frame.
    (86_015, 0x3f_fcc9),
    // The greatest word.
    (131_071, 0x3f_fdcf),
];

/// The entry of a word as a sum, in which V, A and D are 193.
fn entry_by_sum(word: u32) -> Option<u32> {
    let (range, rights, frame) = (word / 32768 % 2, word / 4096 % 8, word % 4096);
    let leaf = word / 65536 == 1 && [1, 3, 4, 5, 7].contains(&rights);
    match word {
        0 => Some(0),
        _ => leaf.then_some(193 + 2 * rights + 256 * range + 1024 * frame),
    }
}

#[test]
fn conversions_by_hand() {
    let right = Rules::default();
    for (word, entry) in BY_HAND {
        assert_eq!(to_sv39(word, &right), Ok((entry as u32, 0)), "{word}");
        assert_eq!(from_sv39(entry, &right), Ok((word, 0)), "{entry:#x}");
        assert_eq!(entry_by_sum(word), Some(entry as u32), "{word}");
    }
}

#[test]
fn conversions_there_and_back() {
    let right = Rules::default();
    // By each entry of 22 bits, the word that converts to it.
    let mut words = vec![None; 1 << 22];
    let mut accepted = 0;
    for word in 0..1 << 17 {
        let made = to_sv39(word, &right);
        assert_eq!(made, entry_by_sum(word).map(|e| (e, 0)).ok_or(18), "{word}");
        if let Ok((entry, _)) = made {
            words[entry as usize] = Some((word, 0));
            accepted += 1;
        }
    }
    assert_eq!(accepted, 40_961);
    assert_eq!(words.iter().flatten().count(), accepted);
    // Those entries convert, back to the same word, and no others.
    for (entry, word) in (0..).zip(words) {
        assert_eq!(from_sv39(entry, &right), word.ok_or(18), "{entry:#x}");
    }
}

#[test]
fn words_above_have_no_entry() {
    let with_a_bit = |(word, _): (u32, u64)| (17..32).map(move |place| word | 1 << place);
    let above = (1 << 17..=u32::MAX).step_by(4093);
    let above = above.chain(BY_HAND.into_iter().flat_map(with_a_bit));
    for word in above.chain([u32::MAX]) {
        assert_eq!(to_sv39(word, &Rules::default()), Err(18), "{word}");
    }
}

#[test]
fn each_bit_of_an_entry_counts() {
    let words = (0..1 << 17)
        .step_by(37)
        .chain(BY_HAND.map(|(word, _)| word));
    for (word, entry) in words.filter_map(|w| entry_by_sum(w).map(|e| (w, e))) {
        for place in 0..64 {
            let found = from_sv39(u64::from(entry) ^ 1 << place, &Rules::default());
            // The bit of the word that goes with this one, if there is one.
            let bit = match place {
                1..=3 => place + 11,
                8 => 15,
                10..=21 => place - 10,
                _ => {
                    assert_eq!(found, Err(18), "{entry:#x} {place}");
                    continue;
                }
            };
            let other = word ^ 1 << bit;
            let expected = entry_by_sum(other).map(|_| (other, 0)).ok_or(18);
            assert_eq!(found, expected, "{entry:#x} {place}");
        }
    }
}

#[test]
fn causes_in_order() {
    let right = Rules::default();
    // W alone of the flags, every further bit, and frame 4,096.
    let mut entry = 1 << 2 | 1 << 4 | 1 << 5 | 1 << 9 | 1 << 22 | 0x3ff << 54;
    let mut causes: Vec<Cause> = [0, 6, 7].map(Cause::Clear).into();
    causes.extend([4, 5, 9].into_iter().chain(54..64).map(Cause::Further));
    causes.extend([Cause::FrameAbove, Cause::Rights]);
    for cause in causes {
        assert_eq!(word_of(entry, &right), Err(cause), "{entry:#x}");
        assert_eq!(from_sv39(entry, &right), Err(18));
        // Mended, so that the next cause is the first.
        entry ^= match cause {
            Cause::Clear(place) | Cause::Further(place) => 1 << place,
            Cause::FrameAbove => 1 << 22,
            Cause::Rights => 1 << 1,
        };
    }
    assert_eq!(from_sv39(entry, &right), Ok((65536 + 3 * 4096, 0)));
}

#[test]
fn conversions_in_a_text() {
    // Before any pool, and between calls on one.
    let lines = "to_sv39 77829\nto_sv39 0x13005\nfrom_sv39 5319 # or\nfrom_sv39 0x14C7
from_sv39 0x15c7\nto_sv39 4294967295\nfrom_sv39 18446744073709551615\nfrom_sv39 0xffffffffffffffff
setup 32\nfrom_sv39 0\nopen 0\nto_sv39 0\nmap 0 4 11 3\nto_sv39 65536\ncoverage 0\n";
    let expected = "line call answer first second
1 to_sv39 0 5319 0
2 to_sv39 0 5319 0
3 from_sv39 0 77829 0
4 from_sv39 0 77829 0
5 from_sv39 0 110597 0
6 to_sv39 18 0 0
7 from_sv39 18 0 0
8 from_sv39 18 0 0
9 setup 0 0 0
10 from_sv39 0 0 0
11 open 0 0 0
12 to_sv39 0 0 0
13 map 0 3 0
14 to_sv39 18 0 0
15 coverage 0 10000 0
";
    assert_eq!(made_by(lines, Rules::default()), expected);
}

/// What `entries` prints, and what is wrong with the line it stopped at.
fn said_of(lines: &str, rules: Rules) -> (String, Option<String>) {
    let mut printed = Vec::new();
    let result = entries::describe(lines.as_bytes(), &mut printed, rules);
    let error = result.err().map(|e| e.to_string());
    (String::from_utf8(printed).unwrap(), error)
}

#[test]
fn entries_in_words() {
    let said: [(u64, &str); 20] = [
        (0, "unmapped, word 0"),
        (0x14c7, "frame 5, rights rw-, in no range, word 77829"),
        (0x15c7, "frame 5, rights rw-, in a range, word 110597"),
        (0x4cb, "frame 1, rights r-x, in no range, word 86017"),
        (0x3ffcc9, "frame 4095, rights --x, in no range, word 86015"),
        (0x400, "no flags, frame 1, no word: valid (V) is clear"),
        (
            0x15c6,
            "flags R W A D RSW8, frame 5, no word: valid (V) is clear",
        ),
        (
            0x1487,
            "flags V R W D, frame 5, no word: accessed (A) is clear",
        ),
        (
            0x1447,
            "flags V R W A, frame 5, no word: dirty (D) is clear",
        ),
        (
            0x14df,
            "flags V R W X U A D, frame 5, no word: further bit 4 (U) is set",
        ),
        (
            0x14e7,
            "flags V R W G A D, frame 5, no word: further bit 5 (G) is set",
        ),
        (
            0x17c3,
            "flags V R A D RSW8 RSW9, frame 5, no word: further bit 9 (RSW) is set",
        ),
        (
            1 << 54 | 1 << 60 | 0xc1,
            "flags V A D reserved54 reserved60, frame 0, no word: further bit 54 (reserved) is set",
        ),
        (
            0b111 << 61 | 0xc3,
            "flags V R A D PBMT61 PBMT62 N, frame 0, no word: further bit 61 (PBMT) is set",
        ),
        (
            1 << 63 | 0xc3,
            "flags V R A D N, frame 0, no word: further bit 63 (N) is set",
        ),
        (
            0x4000c7,
            "flags V R W A D, frame 4096, no word: the frame is above 4095",
        ),
        (
            (1 << 54) - 1024 + 0xc1,
            "flags V A D, frame 17592186044415, no word: the frame is above 4095",
        ),
        (
            0x14c1,
            "flags V A D, frame 5, no word: rights --- (no leaf)",
        ),
        (
            0x14c5,
            "flags V W A D, frame 5, no word: rights -w- (reserved)",
        ),
        (
            0x15cd,
            "flags V W X A D RSW8, frame 5, no word: rights -wx (reserved)",
        ),
    ];
    let right = Rules::default();
    for (entry, what) in said {
        let expected = (format!("{entry:#x}: {what}\n"), None);
        assert_eq!(said_of(&format!("{entry}"), right), expected);
        let among = format!("# one\n\n  {entry:#x}# alone\n");
        assert_eq!(said_of(&among, right), expected);
    }
    for (wrong, what) in [
        ("0x", text::NO_ENTRY),
        ("-1", text::NO_ENTRY),
        ("0x10000000000000000", text::NO_ENTRY),
        ("1 2", "more than one entry"),
    ] {
        let (printed, error) = said_of(&format!("0 # first\n\n{wrong}\n0\n"), right);
        assert_eq!(printed, "0x0: unmapped, word 0\n");
        assert_eq!(error, Some(format!("line 3: {what}")));
    }
}

// The record file.

#[test]
fn malformed_records() {
    let header = "record kind answer first second\n";
    assert_eq!(listed(&[]), header);
    let one = |bytes: &[u8]| listed(bytes).strip_prefix(header).unwrap().to_string();
    assert_eq!(one(&[4]), "1 0 16 0 0\n");
    assert_eq!(one(&[4, 0]), "1 0 16 0 0\n");
    assert_eq!(one(&[4, 0, 1, 0, 32]), "1 0 16 0 0\n");
    assert_eq!(one(&[0, 0]), "1 0 16 0 0\n");
    assert_eq!(one(&[0, 0, 0]), "1 0 16 0 0\n2 0 16 0 0\n");
    assert_eq!(one(&[1, 0]), "1 0 16 0 0\n");
    assert_eq!(one(&[1, 0, 9]), "1 0 16 0 0\n");
    // A length of 1 skips its byte.
    let lines = "raw 0100 ff\nsetup 32\nraw 0000\nopen 0";
    assert_eq!(
        answers(lines),
        ["0 16 0 0", "1 0 0 0", "0 16 0 0", "2 0 0 0"]
    );
    // Unknown kinds and wrong lengths, odd ones too, show the kind read.
    let lines = "raw 0200 0000\nraw 0200 0900\nraw 0200 0100\nraw 0500 0100 200000\nopen 0";
    let expected = ["0 16 0 0", "9 16 0 0", "1 16 0 0", "1 16 0 0", "2 2 0 0"];
    assert_eq!(answers(lines), expected);
    // A preview has no kind: the first unknown ones with map's arguments.
    let lines = "setup 32\nopen 0\nraw 0a00 0900 0000 0400 0b00 0300
        raw 0a00 0a00 0000 0400 0b00 0300\ncoverage 0";
    assert_eq!(answers(lines)[2..], ["9 16 0 0", "10 16 0 0", "8 12 0 0"]);
    // The longest record, whole and cut.
    let mut long = vec![255, 255, 7, 1];
    long.resize(2 + 65535, 3);
    long.extend(encoded("setup 1"));
    assert_eq!(one(&long), "1 263 16 0 0\n2 1 0 0 0\n");
    assert_eq!(one(&long[..65536]), "1 0 16 0 0\n");
}

#[test]
fn before_the_first_set_up() {
    let lines = "open 9\nclose 0\nmap 0 0 0 9\nunmap 0 0 1\nprotect 0 0 1 1
        translate 0 0 0 3\ntranslate 2 0 0 1\ncoverage 0\nsetup 0\nopen 0\nsetup 1\nopen 0";
    let numbers: Vec<String> = answers(lines)
        .iter()
        .map(|l| l.split(' ').nth(1).unwrap().to_string())
        .collect();
    assert_eq!(numbers.join(" "), "2 2 2 2 2 2 16 2 4 2 0 0");
}

#[test]
fn second_set_up_starts_anew() {
    let lines = slept(10) + "translate 0 0 0 1\nsetup 0\ntranslate 0 0 0 1\nsetup 16\n";
    let core = core_after(&lines);
    let fresh = core_after("setup 16");
    assert_eq!(core.buffers, fresh.buffers);
    assert_eq!(core.units, [Unit::fresh(); 2]);
}

#[test]
fn text_both_ways() {
    let lines = "setup 32\nopen 0\nclose 1\nmap 0 4 11 3\nunmap 0 6 1\nprotect 0 4 2 1
translate 7 0 6 1\ncoverage 65535\nraw 0000\nraw 0100ff\nraw 04000100\n";
    assert_eq!(decoded(&encoded(lines)), lines);
    // Rights are numbers like others, whether a call takes them or not.
    for rights in [2, 6, 8, 65535] {
        let lines = format!("map 0 4 11 {rights}\nprotect 0 4 2 {rights}\n");
        assert_eq!(decoded(&encoded(&lines)), lines);
    }
    let encode_error = |lines: &str| {
        let result = text::encode(lines.as_bytes(), &mut Vec::new());
        result.unwrap_err().to_string()
    };
    let calls_error = |lines: &str| {
        let result = text::calls(lines.as_bytes(), &mut Vec::new(), Rules::default());
        result.unwrap_err().to_string()
    };
    for wrong in [
        "set 3",
        "open",
        "open 0 0",
        "open 65536",
        "open -1",
        "raw 0",
        "raw 0g",
        "preview 0 0 1",
        "preview 0 0 1 3 3",
        "preview 0 0 1 x",
        "to_sv39",
        "to_sv39 1 2",
        "to_sv39 4294967296",
        "to_sv39 0x100000000",
        "to_sv39 x",
        "from_sv39",
        "from_sv39 1 2",
        "from_sv39 18446744073709551616",
        "from_sv39 0x",
        "from_sv39 +1",
        "from_sv39 0x-1",
    ] {
        let lines = format!("setup 32\n# first\n{wrong}\n");
        assert!(encode_error(&lines).starts_with("line 3: "));
        assert_eq!(calls_error(&lines), encode_error(&lines));
    }
    for recordless in ["preview 0 0 1 3", "to_sv39 77829", "from_sv39 0x14c7"] {
        let error = encode_error(&format!("setup 32\n\n{recordless}\nset 3"));
        let name = recordless.split_once(' ').unwrap().0;
        assert_eq!(error, format!("line 3: {name} has no record kind"));
    }
    assert_eq!(calls_error("setup 32\nraw 0000"), "line 2: raw is no call");
    let mut random = Random(11);
    for round in 0..400 {
        // Small lengths, so that several records come out of random bytes.
        let bytes: Vec<u8> = (0..random.below(120))
            .map(|_| match round % 3 {
                0 => random.next() as u8,
                _ => random.pick(&[0, 0, 1, 2, 4, 8, 10, 255]),
            })
            .collect();
        assert_eq!(encoded(&decoded(&bytes)), bytes);
    }
    for style in STYLES {
        let bytes = generated(7, 300, style);
        for end in [bytes.len(), bytes.len() - 1, bytes.len() / 2] {
            assert_eq!(encoded(&decoded(&bytes[..end])), &bytes[..end]);
        }
    }
}

// The generator.

fn counted(bytes: &[u8]) -> Stats {
    stats(bytes, Rules::default()).unwrap()
}

/// FNV-1a.
fn hash(bytes: &[u8]) -> u64 {
    bytes.iter().fold(0xcbf2_9ce4_8422_2325, |h, &b| {
        (h ^ b as u64).wrapping_mul(0x0100_0000_01b3)
    })
}

#[test]
fn generator_is_determined() {
    let mut all = Vec::new();
    for style in STYLES {
        let bytes = generated(3, 400, style);
        assert_eq!(bytes, generated(3, 400, style));
        assert_ne!(bytes, generated(4, 400, style));
        // A longer file begins like the shorter one; only garbage ends cut.
        if style != Style::Garbage {
            assert!(generated(3, 500, style).starts_with(&bytes));
        }
        assert_eq!(counted(&bytes).records, 400);
        all.extend(bytes);
    }
    assert_eq!(hash(&all), PINNED);
}

const PINNED: u64 = 6136111835728683370;

#[test]
fn mixed_reaches_everything() {
    for seed in 0..6 {
        let s = counted(&generated(seed, 3000, Style::Mixed));
        for answer in [0, 2, 4, 5, 6, 7, 8, 9, 10, 11, 12, 13, 14, 16, 17] {
            assert!(s.answered(answer) > 0, "seed {seed}: no answer {answer}");
        }
        // No record file reaches these in a life.
        for answer in [1, 3, 15] {
            assert_eq!(s.answered(answer), 0);
        }
        assert!(s.ways[1..].iter().all(|&n| n > 0));
        let share = s.answered(0) * 100 / s.records;
        assert!((55..=80).contains(&share), "seed {seed}: {share}");
    }
}

#[test]
fn mixed_asks_for_reserved_rights() {
    for seed in 0..6 {
        let bytes = generated(seed, 3000, Style::Mixed);
        // By map and by protect: with rights 2, with 6, and with any.
        let mut asked = [[0u64; 3]; 2];
        let mut pieces = Pieces::new(&bytes[..]);
        while let Some(piece) = pieces.next().unwrap() {
            let Piece::Whole(bytes) = piece else { break };
            let (row, rights) = match Call::read(&bytes[2..]) {
                Some(call) if call.kind == MAP => (0, call.args[3]),
                Some(call) if call.kind == PROTECT => (1, call.args[3]),
                _ => continue,
            };
            asked[row][0] += (rights == 2) as u64;
            asked[row][1] += (rights == 6) as u64;
            asked[row][2] += 1;
        }
        assert!(asked.iter().flatten().all(|&n| n > 0), "seed {seed}");
        let reserved: u64 = asked.iter().map(|row| row[0] + row[1]).sum();
        let all: u64 = asked.iter().map(|row| row[2]).sum();
        assert!(
            (15..=50).contains(&(all / reserved)),
            "seed {seed}: {asked:?}"
        );
        let s = counted(&bytes);
        assert!(s.answers[MAP as usize][17] > 0 && s.answers[PROTECT as usize][17] > 0);
        assert!(s.answered(17) <= reserved);
    }
}

#[test]
fn sleep_reaches_its_lengths() {
    for seed in 0..6 {
        let s = counted(&generated(seed, 3000, Style::Sleep));
        for row in 0..3 {
            assert!(s.behind[row][0] > 0, "seed {seed}: {:?}", s.behind);
        }
        assert!(s.behind.iter().map(|row| row[1]).sum::<u64>() > 0);
        assert!(s.ways[1..].iter().all(|&n| n > 20));
        // Its records are counted out, so no call is spent on reserved rights.
        assert_eq!(s.answered(17), 0);
    }
}

#[test]
fn fragment_breaks_pools_up() {
    for seed in 0..6 {
        let s = counted(&generated(seed, 2000, Style::Fragment));
        assert!(s.most_blocks >= 16, "seed {seed}: {}", s.most_blocks);
        assert!(s.ranges_gained >= 50 && s.ranges_lost >= 50);
        assert!(s.answers[MAP as usize][14] > 0);
        assert!(s.half_down > 0 && s.half_up > 0, "seed {seed}");
    }
}

#[test]
fn short_files_reach_halves() {
    let (mut down, mut up) = (0, 0);
    for seed in (8..=400).step_by(8) {
        let s = counted(&generated(seed, 20 + seed % 180, Style::Fragment));
        down += s.half_down;
        up += s.half_up;
    }
    assert!(down >= 20 && up >= 20, "{down} {up}");
}

#[test]
fn big_is_big() {
    for seed in 0..6 {
        let s = counted(&generated(seed, 2000, Style::Big));
        assert!(s.most_pages >= 1000, "seed {seed}: {}", s.most_pages);
        assert_eq!(s.most_open, 4);
        assert!(s.most_ranges >= 16);
        assert!(s.replaced > 0, "seed {seed}: {}", s.replaced);
        assert!(s.ways[1..].iter().all(|&n| n > 0));
    }
}

#[test]
fn grow_reaches_every_wish() {
    let mut wishes = [0; WISHES.len()];
    // Maps at page 0 of spaces 1 to 3 behind a mapped page 1,023, maps behind a page
    // with other rights, unmaps of one page and of more, protects of a page behind which
    // the next map begins, set-ups of no power of two.
    let mut seen = [0; 6];
    for seed in 0..100 {
        let bytes = generated(seed, 300, Style::Grow);
        let s = counted(&bytes);
        assert_eq!(s.records, 300);
        wishes.iter_mut().zip(s.wishes).for_each(|(a, w)| *a += w);
        let reached = s.wishes.iter().filter(|&&n| n > 0).count();
        assert!(reached >= 5, "seed {seed}: {:?}", s.wishes);
        assert!(s.answered(0) * 100 / s.records >= 80);
        let mut protected = (4, 0);
        each_record(
            &bytes[..],
            &mut Core::new(Rules::default()),
            |core, call| {
                let [a0, a1, a2, a3] = call.args.map(u32::from);
                let word = |space, page| core.buffers.page(space, page);
                match call.kind {
                    SETUP => seen[5] += !a0.is_power_of_two() as u32,
                    MAP => {
                        seen[0] += (a1 == 0 && a0 > 0 && word(a0 - 1, 1023) != 0) as u32;
                        let before = a1.checked_sub(1).map_or(0, |page| word(a0, page));
                        seen[1] += (before != 0 && rights_of(before) != a3) as u32;
                        seen[4] += (protected == (a0, a1)) as u32;
                    }
                    UNMAP => seen[2 + (a2 > 1) as usize] += 1,
                    PROTECT => protected = (a0, a1 + a2),
                    _ => {}
                }
            },
            |_, _| Ok(()),
        )
        .unwrap();
    }
    assert!(wishes.iter().all(|&n| n >= 200), "{wishes:?}");
    assert!(seen.iter().all(|&n| n >= 200), "{seen:?}");
}

#[test]
fn garbage_is_malformed() {
    // Records of kinds 9 and 10 with as many arguments as map has.
    let mut like_map = [0; 2];
    for seed in 0..6 {
        let bytes = generated(seed, 1000, Style::Garbage);
        let s = counted(&bytes);
        assert!(s.answered(16) > 400);
        assert!(s.answered(0) > 20);
        // Unknown kinds, known kinds of a wrong length, no kind at all.
        assert!(s.answers[9][16] > 0 && s.answers[0][16] > 0);
        assert!((1..=8).any(|kind| s.answers[kind][16] > 0));
        assert!(listed(&bytes).ends_with(" 0 16 0 0\n"));
        let mut pieces = Pieces::new(&bytes[..]);
        let mut cut = false;
        while let Some(piece) = pieces.next().unwrap() {
            cut = matches!(piece, Piece::Cut(_));
            if let Piece::Whole([10, 0, kind @ (9 | 10), 0, ..]) = piece {
                like_map[*kind as usize - 9] += 1;
            }
        }
        assert!(cut);
    }
    assert!(like_map.iter().all(|&n| n > 0), "{like_map:?}");
}

// Planted bugs.

#[test]
fn planted_bugs_show() {
    let right = Rules::default();
    assert_eq!(Rules::with_bug(""), Some(right));
    assert_eq!(Rules::with_bug("64"), None);
    let bugs = [
        ("65", Style::Sleep),
        ("limit", Style::Sleep),
        ("keep", Style::Sleep),
        ("half", Style::Fragment),
        ("late", Style::Mixed),
    ];
    let bugs = bugs
        .into_iter()
        .chain(WISH_BUGS.map(|bug| (bug, Style::Grow)));
    for (name, style) in bugs {
        let rules = Rules::with_bug(name).unwrap();
        for seed in 0..4 {
            let bytes = generated(seed, 4000, style);
            assert_ne!(listed(&bytes), listed_by(&bytes, rules), "{name} {seed}");
        }
    }
    let half = Rules::with_bug("half").unwrap();
    assert!(listed_by(&encoded(NINE_OF_32), half).ends_with(" 8 0 2813 0\n"));
    assert!(listed_by(&encoded(ELEVEN_OF_32), half).ends_with(" 8 0 3438 0\n"));
    // No listing shows a preview.
    let before = Rules::with_bug("before").unwrap();
    let one = made_by("setup 32\nopen 0\npreview 0 4 11 3", before);
    assert!(one.ends_with("\n3 preview 0 3 0\n"));
    assert_ne!(made_by(PREVIEW_CALLS, before), PREVIEW_LINES);
}

/// Each of the examples of wished frames, with the frames that it gives and those
/// that planted bugs give in their place.
#[test]
fn bugs_of_wishes_by_hand() {
    type Turned<'a> = &'a [(&'a str, &'a [u32])];
    let low: &[u32] = &[0, 1, 2, 3, 4, 5, 6, 7];
    let high: &[u32] = &[16, 17, 18, 19, 20, 21, 22, 23];
    let examples: [(&str, &str, &[u32], Turned); 9] = [
        (LOWER_FREE, "0 108 8 3", high, &[("ignored", low)]),
        (
            LOWER_FREE,
            "0 108 8 1",
            high,
            &[("ignored", low), ("same-rights", low)],
        ),
        (TWO_BUFFERS, "0 108 8 3", high, &[]),
        (
            FIVE,
            "0 5 2 3",
            &[6, 7],
            &[("unaligned", &[5, 6]), ("smaller", &[5, 6])],
        ),
        (
            FIVE,
            "0 5 3 3",
            &[6, 7, 8],
            &[
                ("ignored", &[6, 7, 5]),
                ("unaligned", &[5, 6, 7]),
                // Order 0 at 5; then two pages are left, and 6 is met at order 1.
                ("smaller", &[5, 6, 7]),
                ("first-only", &[6, 7, 5]),
            ],
        ),
        (
            NEAR_F,
            "0 104 4 3",
            &[0, 1, 2, 3],
            &[("past", &[12, 13, 14, 15]), ("smaller", &[12, 13, 0, 1])],
        ),
        (TWO_BUFFERS, "0 8 4 3", &high[..4], &[]),
        (
            ONE_FREE,
            "0 4 2 3",
            &[8, 9],
            &[("one-free", &[4, 5]), ("smaller", &[4, 8])],
        ),
        (LAST_PAGE, "1 0 1 3", &[0], &[("across", &[4])]),
    ];
    for (lines, map, right, turned) in examples {
        assert_eq!(placed(lines, map).0, right, "{map}");
        for bug in WISH_BUGS {
            let expected = turned.iter().find(|t| t.0 == bug).map_or(right, |t| t.1);
            let rules = Rules::with_bug(bug).unwrap();
            let frames = placed_by(lines, map, rules).0;
            assert_eq!(frames, expected, "{bug} {lines}{map}");
            // Frames that are not free or not in the pool leave the tables unsound.
            let unsound = ["past", "one-free"].contains(&bug) && frames != right;
            let printed = made_by(&format!("{lines}map {map}\ncoverage 0"), rules);
            let refused = printed.ends_with(" coverage 2 0 0\n");
            assert_eq!(refused, unsound, "{bug} {lines}{map}");
        }
    }
}

#[test]
fn bugs_of_wishes_end_no_file_early() {
    for bug in WISH_BUGS {
        let rules = Rules::with_bug(bug).unwrap();
        assert_ne!(rules, Rules::default());
        for style in STYLES {
            for seed in 0..3 {
                let bytes = generated(seed, 500, style);
                let mut lines = 0;
                // Previews before the maps too; they alter nothing.
                each_record(
                    &bytes[..],
                    &mut Core::new(rules),
                    |core, call| {
                        if call.kind == MAP {
                            let before = core.buffers.clone();
                            let _ = core.preview(call);
                            assert!(core.buffers == before);
                        }
                    },
                    |_, _| {
                        lines += 1;
                        Ok(())
                    },
                )
                .unwrap();
                assert_eq!(lines, 500, "{bug}");
            }
        }
    }
}

#[test]
fn bugs_of_wishes_turn_what_map_answers() {
    // In short files of the style made for them: all lines, and those of maps.
    for bug in WISH_BUGS {
        let rules = Rules::with_bug(bug).unwrap();
        let (mut files, mut maps) = (0, 0);
        for seed in 0..30 {
            let bytes = generated(seed, 300, Style::Grow);
            let (right, wrong) = (listed(&bytes), listed_by(&bytes, rules));
            let of_map = |l: &&str| l.split(' ').nth(1) == Some("4");
            files += (right != wrong) as u32;
            maps += right
                .lines()
                .filter(of_map)
                .ne(wrong.lines().filter(of_map)) as u32;
            assert_eq!(listed_by(&bytes, Rules::with_bug("").unwrap()), right);
        }
        assert!(files >= 10 && maps >= 4, "{bug}: {files} {maps}");
    }
}

/// A pool with ranges of 16 and 8 pages; the unit has seen both.
const TWO_RANGES: &str = "
    setup 64
    open 0
    map 0 0 16 3
    map 0 40 8 5
    translate 0 0 5 1
    translate 0 0 41 1
";

/// The unit with rights 7 for 6 in its valid range entries.
fn six_made_seven(unit: &Unit) -> Unit {
    let mut made = *unit;
    for e in made.ranges.iter_mut().filter(|e| e.valid == 1) {
        if e.rights == 6 {
            e.rights = 7;
        }
    }
    made
}

#[test]
fn bug_six_takes_range_entries_of_rights_six() {
    let six = Rules::with_bug("six").unwrap();
    let right = Rules::default();
    // Rights of a page entry and of a range entry, all pairs.
    let mut core = core_after(TWO_RANGES);
    let any: Vec<u32> = (0..10).chain(TOO_GREAT).collect();
    for (&page, &range) in any.iter().flat_map(|p| any.iter().map(move |r| (p, r))) {
        core.units[0].pages[5].rights = page;
        core.units[0].ranges[0].rights = range;
        // Of a page that neither entry has.
        let args = [0, 45, 1, 0];
        let by_six = left_by(&core, 7, args, &six);
        if allowed(page) && range == 6 {
            assert_eq!(answer_of(&core, 7, args), 2);
            assert_eq!(by_six.0, Ok((21, 2)), "{page}");
        } else {
            assert_eq!(by_six, left_by(&core, 7, args, &right), "{page} {range}");
        }
    }
}

#[test]
fn bug_six_keeps_the_rest_of_the_layout() {
    let six = Rules::with_bug("six").unwrap();
    let mut random = Random(6);
    // Malformed by both rules, by the right ones alone, by none.
    let mut found = [0; 3];
    let core = core_after(TWO_RANGES);
    for round in 0..3000 {
        let mut words = [0; UNIT_WORDS];
        words.copy_from_slice(&core.units[0].to_words());
        let entry = 320 + 6 * random.below(3) as usize;
        if random.one_in(2) {
            words[entry + 5] = 6;
        }
        let at = match random.below(3) {
            0 => 5 * random.pick(&[5, 41]) + random.below(5) as usize,
            1 => entry + random.below(5) as usize,
            _ => 512 + random.below(3) as usize,
        };
        disturb(&mut random, &mut words[at]);
        let unit = Unit::from_words(&words);
        let sound = unit.sound(&six);
        assert_eq!(sound, unit_kept(&six_made_seven(&unit)), "round {round}");
        found[sound as usize + unit_kept(&unit) as usize] += 1;
    }
    assert!(found.iter().all(|&n| n > 100), "{found:?}");
}

#[test]
fn bug_six_ends_at_the_range_entry() {
    let six = Rules::with_bug("six").unwrap();
    // Such an entry decides by its rights; the page entry that it installs has
    // them too, and that makes the unit malformed.
    let mut core = core_after(TWO_RANGES);
    core.units[0].ranges[0].rights = 6;
    for (access, outcome) in [(1, Err(13)), (2, Ok((7, 2))), (4, Ok((7, 2)))] {
        let (found, b, unit) = left_by(&core, 7, [0, 7, access, 0], &six);
        assert_eq!(found, outcome, "{access}");
        assert_eq!(b, core.buffers);
        assert_eq!(unit.pages[7].rights, if found.is_ok() { 6 } else { 0 });
        assert_eq!(unit.sound(&six), found.is_err());
    }
    // Tables that hold rights 6 are unsound, and calls with them are refused 17.
    let mut plain = Plain::read(&core.buffers).unwrap();
    plain.protect(0, 0, 16, 6);
    let mut unsound = core_after(TWO_RANGES);
    unsound.buffers = plain.words();
    for (command, args) in [(4, [0, 20, 1, 6]), (6, [0, 0, 1, 6]), (10, [0, 20, 1, 6])] {
        assert_eq!(left_by(&core, command, args, &six).0, Err(17));
        assert_eq!(left_by(&unsound, command, args, &six).0, Err(2));
    }
    assert_eq!(left_by(&unsound, 7, [0, 45, 1, 0], &six).0, Err(2));
    // So no list of calls shows it.
    for style in STYLES {
        let bytes = generated(1, 2000, style);
        assert_eq!(listed(&bytes), listed_by(&bytes, six));
    }
    assert_eq!(made_by(PREVIEW_CALLS, six), PREVIEW_LINES);
}

/// Cores in which every refusal of map and protect can be met.
fn cores_for_refusals() -> [Core; 4] {
    let lines = "setup 16\nopen 0\nopen 1\nmap 0 0 4 5\n";
    let mut full = core_after(&slept(64));
    full.buffers.control[1] = u32::MAX;
    let mut unsound = core_after(lines);
    unsound.buffers.pages[9] = 7;
    let mut short = core_after(lines);
    short.buffers.ranges.pop();
    [core_after(lines), full, unsound, short]
}

/// Spaces, spans and rights, good ones and wrong ones, in all combinations.
fn spans_with_rights() -> Vec<[u32; 4]> {
    let spans = [
        (0, 0),
        (0, 1),
        (3, 2),
        (8, 13),
        (100, 1),
        (1023, 1),
        (1023, 2),
        (1024, 1),
        (8, u32::MAX),
        (u32::MAX, 1),
    ];
    let mut all = Vec::new();
    for space in [0, 2, 4] {
        for (first, count) in spans {
            for rights in [0, 2, 5, 6, 7, 8, 10] {
                all.push([space, first, count, rights]);
            }
        }
    }
    all
}

#[test]
fn bug_late_turns_seventeen_into_eight() {
    let late = Rules::with_bug("late").unwrap();
    let right = Rules::default();
    let mut turned = [0; 11];
    let mut numbers = [0; ANSWERS];
    for core in cores_for_refusals() {
        for args in spans_with_rights() {
            let [_, first, count, _] = args;
            let wrong = count == 0 || first as u64 + count as u64 > 1024;
            for command in 1..=10 {
                let by_right = left_by(&core, command, args, &right);
                let by_late = left_by(&core, command, args, &late);
                numbers[by_right.0.err().unwrap_or(0) as usize] += 1;
                if by_right.0 == Err(17) && wrong {
                    assert_eq!(by_late.0, Err(8), "{command} {args:?}");
                    turned[command as usize] += 1;
                } else {
                    assert!(by_late == by_right, "{command} {args:?}");
                }
            }
        }
    }
    for command in 1..=10 {
        let judges = [4, 6, 10].contains(&command);
        assert_eq!(turned[command] > 0, judges, "{turned:?}");
    }
    for number in [0, 1, 2, 5, 6, 8, 10, 11, 12, 14, 15, 17] {
        assert!(numbers[number] > 0, "no {number}: {numbers:?}");
    }
}

#[test]
fn bug_late_in_a_listing() {
    let late = Rules::with_bug("late").unwrap();
    for seed in 0..4 {
        let bytes = generated(seed, 4000, Style::Mixed);
        let (right, wrong) = (listed(&bytes), listed_by(&bytes, late));
        assert_eq!(right.lines().count(), wrong.lines().count());
        let lines = right.lines().zip(wrong.lines());
        for (right, wrong) in lines.filter(|(right, wrong)| right != wrong) {
            let start = right.strip_suffix(" 17 0 0").unwrap();
            assert!(start.ends_with(" 4") || start.ends_with(" 6"));
            assert_eq!(wrong, format!("{start} 8 0 0"));
        }
    }
}

/// Low bits, frames and upper bits of entries in all combinations.
fn some_entries() -> Vec<u64> {
    let mut all = Vec::new();
    for frame in [0, 1, 5, 4095, 4096, 4097, 8191, 1 << 43] {
        for upper in [0, 1, 1 << 6, 1 << 9, 0x3ff] {
            all.extend((0..1024).map(|low| low | frame << 10 | upper << 54));
        }
    }
    all
}

#[test]
fn bugs_of_conversions_change_what_they_say() {
    let right = Rules::default();
    let [clean, nine, further, above] =
        ["clean", "nine", "further", "above"].map(|name| Rules::with_bug(name).unwrap());
    let exchanged = |entry: u64| entry & !0x300 | entry >> 1 & 0x100 | entry << 1 & 0x200;

    for word in (0..1 << 17).chain([1 << 17, u32::MAX]) {
        let made = to_sv39(word, &right);
        let altered = |alter: &dyn Fn(u64) -> u64| made.map(|(e, _)| (alter(e.into()) as u32, 0));
        assert_eq!(to_sv39(word, &clean), altered(&|e| e & !128), "{word}");
        assert_eq!(to_sv39(word, &nine), altered(&exchanged), "{word}");
        assert_eq!(to_sv39(word, &further), made, "{word}");
        assert_eq!(to_sv39(word, &above), made, "{word}");
    }

    // An entry that was not zero before bits were taken out is no unmapped page.
    let leaf = |entry: u64| match entry {
        0 => Err(18),
        _ => from_sv39(entry, &right),
    };
    for entry in some_entries() {
        let found = from_sv39(entry, &right);
        assert_eq!(from_sv39(entry, &clean), found, "{entry:#x}");
        assert_eq!(from_sv39(entry, &nine), from_sv39(exchanged(entry), &right));
        let bare = match entry {
            0 => found,
            _ => leaf(entry << 10 >> 10),
        };
        assert_eq!(from_sv39(entry, &further), bare, "{entry:#x}");
        let taken = match entry >> 10 {
            4096 => leaf(entry ^ 1 << 22).map(|(word, _)| (word + 4096, 0)),
            _ => found,
        };
        assert_eq!(from_sv39(entry, &above), taken, "{entry:#x}");
    }
}

#[test]
fn bugs_of_conversions_show_in_no_call() {
    for bug in ["clean", "nine", "further", "above"] {
        let rules = Rules::with_bug(bug).unwrap();
        for style in STYLES {
            let bytes = generated(1, 200, style);
            assert_eq!(listed(&bytes), listed_by(&bytes, rules), "{bug}");
        }
        assert_eq!(made_by(PREVIEW_CALLS, rules), PREVIEW_LINES);
    }
    let nine = Rules::with_bug("nine").unwrap();
    let said = "0x15c7: flags V R W A D RSW8, frame 5, no word: further bit 8 (RSW) is set
0x16c7: frame 5, rights rw-, in a range, word 110597\n";
    assert_eq!(said_of("0x15c7\n0x16c7", nine).0, said);
}

// Against the rules written down slowly.

/// Runs a file on the calls and on the plain state; compares values and units,
/// and all words every few records. Gives what became of wished frames, by the plain
/// state.
fn compare(bytes: &[u8], every: usize) -> [u64; WISHES.len()] {
    let mut wishes = [0; WISHES.len()];
    let mut plain = Plain::default();
    let mut units = [PlainUnit::default(), PlainUnit::default()];
    let mut core = Core::new(Rules::default());
    let mut pieces = Pieces::new(bytes);
    let mut n = 0;
    while let Some(piece) = pieces.next().unwrap() {
        let Piece::Whole(bytes) = piece else { break };
        let Some(call) = Call::read(&bytes[2..]) else {
            continue;
        };
        n += 1;
        let before = (core.buffers.clone(), core.units);
        let tried = (call.kind == MAP).then(|| core.preview(&call));
        let outcome = core.perform(&call);
        let args = call.args.map(u32::from);
        if let Some(tried) = tried {
            assert_eq!(tried, with_ranges(outcome, &core.buffers, args[0]));
        }
        let refusal = refusals(&plain, &call).first().copied();
        if refusal.is_some() || call.kind != TRANSLATE {
            assert_eq!(outcome.err(), refusal, "{call:?}");
        } else {
            let unit = &mut units[args[0] as usize];
            assert_eq!(outcome, unit.translate(&plain, args[1], args[2], args[3]));
            assert!(core.units[args[0] as usize] == unit.words(), "{call:?}");
            // What is held, no more and no less.
            let held = plain.held.get(&(args[1], args[2]));
            let held = held.filter(|h| h.1 & args[3] != 0);
            assert_eq!(outcome.ok().map(|o| o.0), held.map(|h| h.0));
        }
        let Ok((first, second)) = outcome else {
            assert!((&core.buffers, core.units) == (&before.0, before.1));
            continue;
        };
        let expected = match call.kind {
            SETUP => {
                plain.set_up(args[0]);
                units = Default::default();
                0
            }
            OPEN => {
                plain.open.insert(args[0]);
                0
            }
            CLOSE => plain.close(args[0]),
            MAP => {
                let taken = plain.map(args[0], args[1], args[2], args[3]).unwrap();
                for block in &taken {
                    let case = block.case(plain.size);
                    wishes[WISHES.iter().position(|&w| w == case).unwrap()] += 1;
                }
                taken.len() as u32
            }
            UNMAP => {
                plain.unmap(args[0], args[1], args[2]);
                args[2]
            }
            PROTECT => plain.protect(args[0], args[1], args[2], args[3]),
            TRANSLATE => first,
            COVERAGE => plain.coverage(args[0]),
            _ => unreachable!(),
        };
        assert_eq!(first, expected, "{call:?}");
        assert!(second == 0 || call.kind == TRANSLATE);
        if n % every == 0 {
            assert!(core.buffers == plain.words(), "{call:?}");
            // No page is ever held with reserved rights, by no unit either.
            assert!(plain.held.values().all(|h| allowed(h.1)), "{call:?}");
            assert!(core.units.iter().all(unit_kept), "{call:?}");
        }
    }
    wishes
}

#[test]
fn calls_follow_the_rules() {
    for seed in 20..23 {
        compare(&generated(seed, 1500, Style::Mixed), 5);
        compare(&generated(seed, 1500, Style::Sleep), 20);
        compare(&generated(seed, 1500, Style::Fragment), 5);
        compare(&generated(seed, 200, Style::Big), 10);
        compare(&generated(seed, 1000, Style::Garbage), 20);
    }
}

#[test]
fn growing_follows_the_rules() {
    let mut all = [0; WISHES.len()];
    for seed in 0..80 {
        let bytes = generated(seed, 300, Style::Grow);
        let wishes = compare(&bytes, 3);
        assert_eq!(counted(&bytes).wishes, wishes, "seed {seed}");
        all.iter_mut().zip(wishes).for_each(|(a, w)| *a += w);
    }
    assert!(all.iter().all(|&n| n >= 150), "{all:?}");
    for style in [Style::Mixed, Style::Sleep, Style::Fragment] {
        let bytes = generated(5, 500, style);
        assert_eq!(counted(&bytes).wishes, compare(&bytes, 50));
    }
}

/// A pool in which frames are held singly or in spans, for pages of space 0.
fn some_pool(random: &mut Random) -> Plain {
    let mut plain = Plain::default();
    plain.set_up(random.among(1, 90) as u32);
    plain.open.insert(0);
    let longest = random.pick(&[1, 4, 12, 30]);
    let mut frame = random.below(longest) as u32;
    while frame < plain.size {
        let held = 1 + random.below(longest) as u32;
        for f in frame..plain.size.min(frame + held) {
            plain.held.insert((0, f), (f, 3));
        }
        frame += held + 1 + random.below(longest) as u32;
    }
    plain
}

#[test]
fn any_wish_follows_the_rules() {
    let mut random = Random(23);
    let mut met_inside = 0;
    for _ in 0..1500 {
        let mut plain = some_pool(&mut random);
        let mut b = plain.words();
        let size = plain.size;
        let free = size - plain.held.len() as u32;
        if free == 0 {
            continue;
        }
        let n = 1 + random.below(free as u64) as u32;
        let near = random.below(size as u64 + 20) as u32;
        let wished = random.pick(&[
            None,
            Some(near),
            Some(near),
            Some(near & !7),
            Some(u32::MAX),
        ]);
        let right = Rules::default();
        let taken = pool::take(&mut b.frames, size as usize, n, wished, &right);
        let expected = plain.blocks_for(n, wished).unwrap();
        // A wish moves blocks and changes none of the call's orders.
        let unmoved = plain.blocks_for(n, None).unwrap();
        assert!(unmoved
            .iter()
            .map(|t| t.order)
            .eq(expected.iter().map(|t| t.order)));
        let expected: Vec<(u32, u32)> = expected.iter().map(|t| (t.start, t.order)).collect();
        let found: Vec<(u32, u32)> = taken.iter().map(|t| (t.start, t.order)).collect();
        assert_eq!(found, expected, "{n} {wished:?}");
        // A wish in the midst of a free block leaves free blocks on both sides.
        let at = taken[0].start as usize;
        let met = [Wish::MetOther, Wish::MetSame].contains(&taken[0].wish);
        met_inside += (met && at > 0 && is_free(b.frames[at - 1])) as u32;
        let mut page = 100;
        for block in &taken {
            for frame in block.start..block.start + (1 << block.order) {
                b.frames[frame as usize] = owner(0, page);
                plain.held.insert((0, page), (frame, 3));
                page += 1;
            }
        }
        assert!(b.frames == plain.words().frames, "{n} {wished:?}");
    }
    assert!(met_inside > 20, "{met_inside}");
}

/// A state in the middle of a generated file.
fn some_core(seed: u64, n: u64, style: Style) -> Core {
    let mut core = Core::new(Rules::default());
    let bytes = generated(seed, n, style);
    each_record(&bytes[..], &mut core, |_, _| {}, |_, _| Ok(())).unwrap();
    core
}

/// Alters a word a little or to something telling.
fn disturb(random: &mut Random, word: &mut u32) {
    let near = [word.wrapping_add(1), word.wrapping_sub(1)];
    let bit = *word ^ 1 << random.below(18);
    let telling = [
        0,
        1,
        3,
        4,
        15,
        16,
        1023,
        1024,
        4096,
        4097,
        8191,
        8192,
        16384,
        16385,
        16394,
        16395,
        65535,
        65536,
        98304,
        131071,
        131072,
        u32::MAX,
    ];
    *word = match random.below(4) {
        0 => random.pick(&near),
        1 | 2 => bit,
        _ => random.pick(&telling),
    };
}

/// Gives some held pages any rights up to 7, with range bits and entries to match.
fn give_any_rights(random: &mut Random, b: &mut Buffers) {
    let mut plain = Plain::read(b).unwrap();
    let from = random.below(plain.held.len() as u64) as usize;
    let count = random.among(1, 30) as usize;
    let rights = random.below(8) as u32;
    for held in plain.held.values_mut().skip(from).take(count) {
        held.1 = rights;
    }
    *b = plain.words();
}

#[test]
fn soundness_is_exact() {
    let mut random = Random(99);
    let mut sound = 0;
    let mut core = Core::new(Rules::default());
    for round in 0..1200u64 {
        if round % 40 == 0 {
            core = some_core(round, 120 + round / 8, STYLES[(round / 40 % 5) as usize]);
        }
        let mut b = core.buffers.clone();
        assert!(judge(&b).is_ok());
        let given = random.one_in(4);
        if given {
            give_any_rights(&mut random, &mut b);
        }
        for _ in 0..random.among(!given as u16, 2) {
            let buffer = match random.below(4) {
                0 => &mut b.control,
                1 => &mut b.frames,
                2 => &mut b.pages,
                _ => &mut b.ranges,
            };
            // Often among the words in use.
            let used: Vec<usize> = (0..buffer.len()).filter(|&i| buffer[i] != 0).collect();
            let at = match used.is_empty() || random.one_in(3) {
                true => random.below(buffer.len() as u64) as usize,
                false => random.pick(&used),
            };
            let from = random.below(buffer.len() as u64) as usize;
            match random.one_in(5) {
                true => buffer[at] = buffer[from],
                false => disturb(&mut random, &mut buffer[at]),
            }
        }
        let expected = Plain::read(&b).is_some();
        assert_eq!(judge(&b).is_ok(), expected, "round {round}");
        sound += expected as u32;
    }
    assert!(sound > 20, "{sound}");
}

#[test]
fn unit_layout_is_exact() {
    let rules = Rules::default();
    let mut random = Random(5);
    let mut kept = 0;
    let mut core = Core::new(Rules::default());
    for round in 0..3000u64 {
        if round % 100 == 0 {
            core = some_core(round, 400, STYLES[(round / 100 % 4) as usize]);
        }
        let mut words = [0; UNIT_WORDS];
        words.copy_from_slice(&core.units[0].to_words());
        assert_eq!(Unit::from_words(&words), core.units[0]);
        assert!(core.units[0].sound(&rules));
        for _ in 0..random.among(1, 2) {
            let at = match random.below(3) {
                0 => random.below(320),
                1 => 320 + random.below(30),
                _ => 512 + random.below(3),
            } as usize;
            disturb(&mut random, &mut words[at]);
        }
        let unit = Unit::from_words(&words);
        assert_eq!(unit.sound(&rules), unit_kept(&unit), "round {round}");
        kept += unit.sound(&rules) as u32;
    }
    assert!((100..2900).contains(&kept), "{kept}");
}

#[test]
fn range_entry_edges() {
    let kept = |base: u32, limit: u32, offset: u32| {
        let mut unit = Unit::fresh();
        unit.ranges[31] = RangeEntry {
            valid: 1,
            space: 3,
            base,
            limit,
            offset,
            rights: 7,
        };
        let sound = unit.sound(&Rules::default());
        assert_eq!(sound, unit_kept(&unit));
        sound
    };
    let minus = |n: u32| 0u32.wrapping_sub(n);
    assert!(kept(0, 1024, 3072));
    assert!(!kept(0, 1024, 3073));
    assert!(kept(1023, 1024, 3072));
    assert!(!kept(1023, 1024, 3073));
    assert!(kept(10, 1024, minus(10)));
    assert!(!kept(10, 1024, minus(11)));
    assert!(!kept(9, 1024, minus(10)));
    assert!(!kept(0, 1025, 0));
    assert!(!kept(5, 5, 0));
    assert!(!kept(6, 5, 0));
    assert!(kept(4, 5, 0));
}

// Calls on lent words.

#[test]
fn lengths_come_first() {
    let core = core_after(&slept(3));
    for which in 0..4 {
        for change in [-1i32, 1, -10_000] {
            let mut b = core.buffers.clone();
            b.control[0] = 0;
            let buffer = match which {
                0 => &mut b.control,
                1 => &mut b.frames,
                2 => &mut b.pages,
                _ => &mut b.ranges,
            };
            let length = (buffer.len() as i32 + change).max(0) as usize;
            buffer.resize(length, 0);
            let lent = b.clone();
            for command in (1..=8).chain([10]) {
                let mut unit = core.units[0];
                unit.next = 99;
                let before = unit;
                let args = [9, 5000, 0, 9];
                let outcome = state::perform(command, &mut b, &mut unit, args, &Rules::default());
                assert_eq!(outcome, Some(Err(1)));
                assert!(b == lent && unit == before);
            }
        }
    }
}

#[test]
fn unit_refusals() {
    let core = core_after(&slept(3));
    let b = &core.buffers;
    let ask = |unit: &mut Unit, args: [u32; 3]| {
        unit::translate(b, unit, args[0], args[1], args[2], &Rules::default())
    };
    let mut unit = core.units[0];
    unit.seen = 4;
    assert_eq!(ask(&mut unit, [9, 0, 1]), Err(3));
    unit.next = 32;
    assert_eq!(ask(&mut unit, [9, 0, 1]), Err(2));
    // Set up unit takes any unit.
    assert_eq!(unit::set_up_unit(&mut unit), Ok((0, 0)));
    assert_eq!(unit, Unit::fresh());
    unit.last = 0;
    assert_eq!(ask(&mut unit, [0, 0, 1]), Err(2));
    // An all-zero unit names an invalid entry as last used.
    let mut unit = Unit::from_words(&[0; UNIT_WORDS]);
    assert_eq!(ask(&mut unit, [0, 0, 1]), Err(2));
    // An entry in force decides, its right too.
    let mut unit = Unit::fresh();
    unit.pages[5] = PageEntry {
        valid: 1,
        space: 0,
        page: 5,
        frame: 4095,
        rights: 4,
    };
    unit.seen = 3;
    assert_eq!(ask(&mut unit, [0, 5, 1]), Err(13));
    assert_eq!(ask(&mut unit, [0, 5, 4]), Ok((4095, 1)));
    assert_eq!(ask(&mut unit, [u32::MAX, 5, 4]), Err(5));
    assert_eq!(ask(&mut unit, [0, u32::MAX, 4]), Err(8));
    assert_eq!(ask(&mut unit, [0, 5, u32::MAX]), Err(7));
    // Last used is tried first, then ascending.
    let entry = |base, rights| RangeEntry {
        valid: 1,
        space: 0,
        base,
        limit: 50,
        offset: 100 * rights,
        rights,
    };
    let mut unit = Unit::fresh();
    unit.seen = 3;
    unit.ranges[3] = entry(20, 1);
    unit.ranges[4] = entry(10, 3);
    unit.ranges[5] = entry(20, 4);
    unit.last = 5;
    assert_eq!(ask(&mut unit.clone(), [0, 20, 4]), Ok((420, 2)));
    assert_eq!(ask(&mut unit.clone(), [0, 20, 1]), Err(13));
    assert_eq!(ask(&mut unit, [0, 10, 2]), Ok((310, 2)));
    assert_eq!(unit.last, 4);
    unit.last = 32;
    assert_eq!(ask(&mut unit, [0, 30, 1]), Ok((130, 2)));
    assert_eq!(unit.last, 3);
}

#[test]
fn the_log_ends() {
    let rules = Rules::default();
    let mut b = core_after(&slept(64)).buffers;
    b.control[1] = u32::MAX - 1;
    assert_eq!(tables::protect(&mut b, 0, 100, 1, 7, &rules), Ok((1, 0)));
    assert_eq!(b.removals(), u32::MAX);
    let at = 3 + 3 * 63;
    assert_eq!(b.control[at..at + 3], [0, 100, 1]);
    let lent = b.clone();
    assert_eq!(tables::protect(&mut b, 0, 100, 1, 1, &rules), Err(15));
    assert_eq!(tables::unmap(&mut b, 0, 100, 1), Err(15));
    assert_eq!(tables::close(&mut b, 0), Err(15));
    assert_eq!(tables::unmap(&mut b, 0, 101, 1), Err(12));
    assert_eq!(tables::close(&mut b, 1), Err(10));
    assert_eq!(b, lent);
    assert_eq!(tables::map(&mut b, 0, 101, 1, 1, &rules), Ok((1, 0)));
    // A unit far behind, and one that has seen nearly all.
    let mut unit = Unit::fresh();
    assert_eq!(unit::translate(&b, &mut unit, 0, 0, 1, &rules), Ok((0, 3)));
    assert_eq!(unit.seen, u32::MAX);
    unit.seen = u32::MAX - 64;
    assert_eq!(unit::translate(&b, &mut unit, 0, 0, 1, &rules), Ok((0, 1)));
    // A span that would wrap.
    let mut c = b.clone();
    assert_eq!(tables::map(&mut c, 0, u32::MAX, 2, 1, &rules), Err(8));
    assert_eq!(tables::map(&mut c, 0, 2, u32::MAX, 1, &rules), Err(8));
    assert_eq!(b, c);
}

#[test]
fn refusals_leave_all_as_it_was() {
    let mut random = Random(41);
    let mut numbers = [0; ANSWERS];
    let mut core = Core::new(Rules::default());
    for round in 0..1500u64 {
        if round % 60 == 0 {
            core = some_core(round, 300, STYLES[(round / 60 % 5) as usize]);
        }
        let mut b = core.buffers.clone();
        let mut unit = core.units[0];
        if random.one_in(3) {
            let at = random.below(4096) as usize;
            disturb(&mut random, &mut b.pages[at]);
        }
        if random.one_in(4) {
            unit.seen = random.below(200) as u32;
        }
        let command = 1 + random.below(10) as u32;
        let mut arg = |good: u64| match random.one_in(8) {
            true => random.pick(&[0, 4, 8, 1023, 1024, 4096, u32::MAX]),
            false => random.below(good) as u32,
        };
        let args = match command {
            7 => [arg(4), arg(200), 1 << arg(3).min(20), 0],
            _ => [arg(4), arg(200), arg(9), arg(8)],
        };
        let lent = (b.clone(), unit);
        let outcome = state::perform(command, &mut b, &mut unit, args, &Rules::default()).unwrap();
        match outcome {
            Err(number) => {
                numbers[number as usize] += 1;
                assert!((&b, unit) == (&lent.0, lent.1));
            }
            Ok(_) if command == 9 => assert!(b == lent.0 && unit == Unit::fresh()),
            Ok(_) if command == 10 => assert!((&b, unit) == (&lent.0, lent.1)),
            Ok(_) => assert!(Plain::read(&b).is_some()),
        }
    }
    for number in [2, 3, 5, 8, 10, 12, 17] {
        assert!(numbers[number] > 0, "{numbers:?}");
    }
}

#[test]
fn protocol() {
    let core = core_after(&slept(3));
    let mut input: Vec<u32> = Vec::new();
    let mut ask = |command: u32, b: &Buffers, unit: &Unit, args: [u32; 4]| {
        input.push(command);
        for buffer in [&b.control, &b.frames, &b.pages, &b.ranges] {
            input.push(buffer.len() as u32);
            input.extend(buffer);
        }
        input.extend(unit.to_words());
        input.extend(args);
    };
    let empty = Buffers {
        control: vec![],
        frames: vec![7],
        pages: vec![],
        ranges: vec![1, 2],
    };
    ask(7, &core.buffers, &core.units[0], [0, 1, 2, 0]);
    ask(9, &empty, &core.units[0], [0; 4]);
    ask(2, &empty, &core.units[0], [0; 4]);
    ask(10, &core.buffers, &core.units[0], [0, 16, 3, 3]);
    ask(1, &core.buffers, &core.units[0], [77, 0, 0, 0]);
    let bytes: Vec<u8> = input.iter().flat_map(|w| w.to_le_bytes()).collect();
    let mut output = Vec::new();
    state::serve(&mut &bytes[..], &mut output, &Rules::default()).unwrap();

    let mut expected: Vec<u32> = Vec::new();
    let mut answer = |values: [u32; 3], b: &Buffers, unit: &Unit| {
        expected.extend(values);
        for buffer in [&b.control, &b.frames, &b.pages, &b.ranges] {
            expected.push(buffer.len() as u32);
            expected.extend(buffer);
        }
        expected.extend(unit.to_words());
    };
    let after = core_after(&(slept(3) + "translate 0 0 1 2"));
    answer([0, 1, 2], &core.buffers, &after.units[0]);
    answer([0, 0, 0], &empty, &Unit::fresh());
    answer([1, 0, 0], &empty, &core.units[0]);
    answer([0, 2, 1], &core.buffers, &core.units[0]);
    let set_up = core_after("setup 77").buffers;
    answer([0, 0, 0], &set_up, &core.units[0]);
    let expected: Vec<u8> = expected.iter().flat_map(|w| w.to_le_bytes()).collect();
    assert_eq!(output, expected);

    // Cut input and unknown commands fail.
    let cut = &bytes[..bytes.len() - 1];
    assert!(state::serve(&mut &cut[..], &mut Vec::new(), &Rules::default()).is_err());
    let mut unknown = bytes.clone();
    unknown[0] = 11;
    assert!(state::serve(&mut &unknown[..], &mut Vec::new(), &Rules::default()).is_err());
}

#[test]
fn conversions_of_lent_numbers() {
    let convert = |words: &[u32]| {
        let bytes: Vec<u8> = words.iter().flat_map(|w| w.to_le_bytes()).collect();
        let mut output = Vec::new();
        state::convert(&mut &bytes[..], &mut output, &Rules::default()).map(|()| output)
    };
    let answers = |words: &[u32]| words.iter().flat_map(|w| w.to_le_bytes()).collect();
    let asked = [0, 2, 77829, 0, 65541, 0, 1, 2, 5319, 0, 5319, 1 << 31];
    let expected: Vec<u8> = answers(&[0, 5319, 0, 18, 0, 0, 0, 77829, 0, 18, 0, 0]);
    assert_eq!(convert(&asked).unwrap(), expected);
    // Cut input, an unknown direction and a word of more than 32 bits fail.
    assert!(convert(&asked[..11]).is_err());
    assert!(convert(&[2, 1, 0, 0]).is_err());
    assert!(convert(&[0, 1, 0, 1]).is_err());
}

#[test]
fn conversions_that_are_stored() {
    assert_eq!(made_by(SV39_CALLS, Rules::default()), SV39_LINES);
}
