//! Record files: reading, running, the listing and counts.

use std::io::{self, Read, Write};

use crate::pool::WISHES;
use crate::tables;
use crate::unit::{self, Rules, Unit};
use crate::words::*;

pub const NAMES: [&str; 9] = [
    "",
    "setup",
    "open",
    "close",
    "map",
    "unmap",
    "protect",
    "translate",
    "coverage",
];
/// Arguments of each kind.
pub const ARGS: [usize; 9] = [0, 1, 1, 1, 4, 3, 4, 4, 1];

pub const SETUP: u16 = 1;
pub const OPEN: u16 = 2;
pub const CLOSE: u16 = 3;
pub const MAP: u16 = 4;
pub const UNMAP: u16 = 5;
pub const PROTECT: u16 = 6;
pub const TRANSLATE: u16 = 7;
pub const COVERAGE: u16 = 8;

/// A record of a known kind with its arguments; unused ones are zero.
#[derive(Clone, Copy, PartialEq, Eq, Debug)]
pub struct Call {
    pub kind: u16,
    pub args: [u16; 4],
}

impl Call {
    pub fn new(kind: u16, args: &[u16]) -> Call {
        let mut all = [0; 4];
        all[..args.len()].copy_from_slice(args);
        Call { kind, args: all }
    }

    pub fn used(&self) -> &[u16] {
        &self.args[..ARGS[self.kind as usize]]
    }

    /// Reads what follows a length, if its kind is known and the length right.
    pub fn read(body: &[u8]) -> Option<Call> {
        let mut words = body
            .chunks_exact(2)
            .map(|w| u16::from_le_bytes([w[0], w[1]]));
        let kind = words.next()?;
        if !(1..=8).contains(&kind) || body.len() != 2 + 2 * ARGS[kind as usize] {
            return None;
        }
        let mut args = [0; 4];
        args.iter_mut().zip(words).for_each(|(a, w)| *a = w);
        Some(Call { kind, args })
    }

    /// The whole record, length included.
    pub fn bytes(&self) -> Vec<u8> {
        let args = self.used();
        let length = 2 + 2 * args.len() as u16;
        [length, self.kind]
            .iter()
            .chain(args)
            .flat_map(|w| w.to_le_bytes())
            .collect()
    }
}

/// One record's bytes, its length included, or the cut tail.
pub enum Piece<'a> {
    Whole(&'a [u8]),
    Cut(&'a [u8]),
}

/// Takes an input apart into records. Holds one record at a time.
pub struct Pieces<R> {
    input: R,
    bytes: Vec<u8>,
}

impl<R: Read> Pieces<R> {
    pub fn new(input: R) -> Pieces<R> {
        Pieces {
            input,
            bytes: Vec::new(),
        }
    }

    /// Reads on until so many bytes are there; false at the end of input.
    fn fill(&mut self, until: usize) -> io::Result<bool> {
        let mut at = self.bytes.len();
        self.bytes.resize(until, 0);
        while at < until {
            match self.input.read(&mut self.bytes[at..]) {
                Ok(0) => {
                    self.bytes.truncate(at);
                    return Ok(false);
                }
                Ok(n) => at += n,
                Err(e) if e.kind() == io::ErrorKind::Interrupted => {}
                Err(e) => return Err(e),
            }
        }
        Ok(true)
    }

    pub fn next(&mut self) -> io::Result<Option<Piece<'_>>> {
        self.bytes.clear();
        if !self.fill(2)? {
            return Ok(match self.bytes.len() {
                0 => None,
                _ => Some(Piece::Cut(&self.bytes)),
            });
        }
        let length = u16::from_le_bytes([self.bytes[0], self.bytes[1]]) as usize;
        if self.fill(2 + length)? {
            Ok(Some(Piece::Whole(&self.bytes)))
        } else {
            Ok(Some(Piece::Cut(&self.bytes)))
        }
    }
}

/// The four buffers and the two units.
pub struct Core {
    pub buffers: Buffers,
    pub units: [Unit; 2],
    pub rules: Rules,
}

impl Core {
    pub fn new(rules: Rules) -> Core {
        Core {
            buffers: Buffers::zeroed(),
            units: [Unit::fresh(); 2],
            rules,
        }
    }

    pub fn perform(&mut self, call: &Call) -> Outcome {
        let b = &mut self.buffers;
        let [a0, a1, a2, a3] = call.args.map(u32::from);
        match call.kind {
            SETUP => {
                let outcome = tables::set_up_pool(b, a0)?;
                self.units = [Unit::fresh(); 2];
                Ok(outcome)
            }
            OPEN => tables::open(b, a0),
            CLOSE => tables::close(b, a0),
            MAP => tables::map(b, a0, a1, a2, a3, &self.rules),
            UNMAP => tables::unmap(b, a0, a1, a2),
            PROTECT => tables::protect(b, a0, a1, a2, a3, &self.rules),
            TRANSLATE if a0 > 1 => Err(16),
            TRANSLATE => unit::translate(b, &mut self.units[a0 as usize], a1, a2, a3, &self.rules),
            COVERAGE => tables::coverage(b, a0, &self.rules),
            _ => Err(16),
        }
    }

    /// Tries a map. No record kind asks for it.
    pub fn preview(&self, map: &Call) -> Outcome {
        let [space, first, count, rights] = map.args.map(u32::from);
        tables::preview(&self.buffers, space, first, count, rights, &self.rules)
    }
}

/// One line of the listing, without its number.
#[derive(Clone, Copy, PartialEq, Eq, Debug)]
pub struct Line {
    pub kind: u16,
    pub outcome: Outcome,
}

/// Runs every record of the input. Before each call `before` sees the core,
/// after each record `after` sees it with the line.
pub fn each_record<R: Read>(
    input: R,
    core: &mut Core,
    mut before: impl FnMut(&Core, &Call),
    mut after: impl FnMut(&Core, &Line) -> io::Result<()>,
) -> io::Result<()> {
    let mut pieces = Pieces::new(input);
    while let Some(piece) = pieces.next()? {
        let (kind, outcome) = match piece {
            Piece::Cut(_) => (0, Err(16)),
            Piece::Whole(bytes) if bytes.len() < 4 => (0, Err(16)),
            Piece::Whole(bytes) => {
                let kind = u16::from_le_bytes([bytes[2], bytes[3]]);
                match Call::read(&bytes[2..]) {
                    None => (kind, Err(16)),
                    Some(call) => {
                        before(core, &call);
                        (kind, core.perform(&call))
                    }
                }
            }
        };
        after(core, &Line { kind, outcome })?;
    }
    Ok(())
}

/// Prints the listing; gives the number of records.
pub fn run<R: Read, W: Write>(input: R, output: &mut W, rules: Rules) -> io::Result<u64> {
    writeln!(output, "record kind answer first second")?;
    let mut number = 0u64;
    let mut core = Core::new(rules);
    each_record(
        input,
        &mut core,
        |_, _| {},
        |_, line| {
            number += 1;
            let [answer, first, second] = numbers(line.outcome);
            writeln!(output, "{number} {} {answer} {first} {second}", line.kind)
        },
    )?;
    Ok(number)
}

/// Where coverage goes from an exact half.
#[derive(Clone, Copy, PartialEq, Eq, Debug)]
pub enum Half {
    Down,
    Up,
}

/// Where 10,000 × inside / mapped goes if it is an exact half, that is an odd
/// number of halves: 1 modulo 4 goes down, 3 modulo 4 goes up.
pub fn half(inside: u32, mapped: u32) -> Option<Half> {
    let (halves, rest) = (20_000 * inside / mapped, 20_000 * inside % mapped);
    match halves % 4 {
        1 if rest == 0 => Some(Half::Down),
        3 if rest == 0 => Some(Half::Up),
        _ => None,
    }
}

/// Answers that a call on the pool or a record can have: 0 to 17. 18 is an answer
/// of conversions alone, for which no record asks.
pub const ANSWERS: usize = 18;

/// Counts over a run.
#[derive(Default, Debug)]
pub struct Stats {
    pub records: u64,
    /// By kind (9 = any other) and answer.
    pub answers: [[u64; ANSWERS]; 10],
    pub ways: [u64; 4],
    /// Translations that found their unit so many records behind: [63, 64, 65]
    /// by [accepted, refused].
    pub behind: [[u64; 2]; 3],
    /// Valid range entries that way 3 replaced.
    pub replaced: u64,
    /// Coverages that were an exact half and went to the even figure below it.
    pub half_down: u64,
    /// The same, to the even figure above it.
    pub half_up: u64,
    /// Blocks that accepted maps took, by what became of their wished frames.
    pub wishes: [u64; WISHES.len()],
    pub most_blocks: u32,
    pub most_pages: u32,
    pub most_ranges: u32,
    pub most_open: u32,
    pub ranges_gained: u64,
    pub ranges_lost: u64,
}

pub fn stats<R: Read>(input: R, rules: Rules) -> io::Result<Stats> {
    let mut stats = Stats::default();
    let mut core = Core::new(rules);
    let behind = std::cell::Cell::new(0);
    let replaced = std::cell::Cell::new(false);
    let asked = std::cell::Cell::new([0; 4]);
    let blocks = std::cell::RefCell::new(Vec::new());
    let mut ranges = 0;
    each_record(
        input,
        &mut core,
        |core, call| {
            if call.kind == TRANSLATE && call.args[0] <= 1 {
                let unit = &core.units[call.args[0] as usize];
                behind.set(core.buffers.removals().wrapping_sub(unit.seen));
                // The entry at the place to replace, if no record can drop it.
                let [_, space, page, _] = call.args.map(u32::from);
                replaced.set(
                    behind.get() == 0
                        && unit.ranges[unit.next as usize].valid == 1
                        && space < 4
                        && page < 1024
                        && in_range(core.buffers.page(space, page)),
                );
            }
            asked.set(call.args.map(u32::from));
            if call.kind == MAP {
                // The map is made on a copy, which gives its blocks.
                let [space, first, count, rights] = asked.get();
                let mut b = core.buffers.clone();
                let made = tables::map_blocks(&mut b, space, first, count, rights, &core.rules);
                blocks.replace(made.unwrap_or_default());
            }
        },
        |core, line| {
            stats.records += 1;
            let answer = line.outcome.err().unwrap_or(0);
            stats.answers[line.kind.min(9) as usize][answer as usize] += 1;
            if line.kind == TRANSLATE && answer != 16 {
                if let Some(row) = behind.get().checked_sub(63).filter(|&row| row < 3) {
                    stats.behind[row as usize][(answer != 0) as usize] += 1;
                }
            }
            if let Ok((first, second)) = line.outcome {
                if line.kind == TRANSLATE {
                    stats.ways[second as usize] += 1;
                    stats.replaced += (second == 3 && replaced.get()) as u64;
                }
                if line.kind == MAP {
                    stats.most_blocks = stats.most_blocks.max(first);
                    stats.most_pages = stats.most_pages.max(asked.get()[2]);
                    for block in blocks.borrow().iter() {
                        stats.wishes[block.wish as usize] += 1;
                    }
                }
                if line.kind == COVERAGE {
                    let (inside, mapped) = tables::pages_counted(&core.buffers, asked.get()[0]);
                    let half = half(inside, mapped);
                    stats.half_down += (half == Some(Half::Down)) as u64;
                    stats.half_up += (half == Some(Half::Up)) as u64;
                }
                let now = (0..SPACES as u32)
                    .map(|space| tables::ranges_used(&core.buffers, space))
                    .sum::<u32>();
                stats.ranges_gained += now.saturating_sub(ranges) as u64;
                stats.ranges_lost += ranges.saturating_sub(now) as u64;
                stats.most_ranges = stats.most_ranges.max(now);
                stats.most_open = stats.most_open.max(core.buffers.control[2].count_ones());
                ranges = now;
            }
            Ok(())
        },
    )?;
    Ok(stats)
}

impl Stats {
    /// Records answered so, over all kinds.
    pub fn answered(&self, answer: usize) -> u64 {
        self.answers.iter().map(|row| row[answer]).sum()
    }

    pub fn print<W: Write>(&self, output: &mut W) -> io::Result<()> {
        writeln!(output, "records {}", self.records)?;
        for answer in 0..ANSWERS {
            writeln!(output, "answer_{answer} {}", self.answered(answer))?;
        }
        for (kind, row) in self.answers.iter().enumerate() {
            let name = match kind {
                0 => "none",
                9 => "other",
                k => NAMES[k],
            };
            for (answer, count) in row.iter().enumerate() {
                writeln!(output, "{name}_answer_{answer} {count}")?;
            }
        }
        for way in 1..=3 {
            writeln!(output, "way_{way} {}", self.ways[way])?;
        }
        for (row, [accepted, refused]) in self.behind.iter().enumerate() {
            let n = row + 63;
            writeln!(output, "behind_{n} {}", accepted + refused)?;
            writeln!(output, "behind_{n}_accepted {accepted}")?;
            writeln!(output, "behind_{n}_refused {refused}")?;
        }
        writeln!(output, "ranges_replaced {}", self.replaced)?;
        writeln!(output, "half_down {}", self.half_down)?;
        writeln!(output, "half_up {}", self.half_up)?;
        for (name, count) in WISHES.iter().zip(self.wishes) {
            writeln!(output, "wish_{name} {count}")?;
        }
        writeln!(output, "map_blocks_most {}", self.most_blocks)?;
        writeln!(output, "map_pages_most {}", self.most_pages)?;
        writeln!(output, "ranges_most {}", self.most_ranges)?;
        writeln!(output, "ranges_gained {}", self.ranges_gained)?;
        writeln!(output, "ranges_lost {}", self.ranges_lost)?;
        writeln!(output, "open_most {}", self.most_open)
    }
}
